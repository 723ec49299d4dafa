#!/bin/sh
# usage: refused.sh [CRATE...], at the top of the repository, after rt ci
# A must-fail edit may hold several wrong programs; rt asks that the prover refuses the whole of it. Here each is tried by
# itself: `program: NAME` starts it, one `refuses: PROOF FACT` says what is to refuse it, and the prover must say that this
# fact, of the function whose proof is proofs/PROOF/ or in proofs/PROOF.antt, does not hold. A fact that only rests on another
# that failed does not count, nor does one of which it is said only that its proof no longer has the form that is asked for
# there: a right program of that form would be refused alike.
exec python3 "$(dirname "$0")/refused.py" "$@"
