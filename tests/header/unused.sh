#!/bin/sh
# The compiler warns where a call's answer is not looked at: sh unused.sh [COMPILER ...], from the top of the repository.
# Exit status 0, or 1 and what was not warned of.
set -u
header=include/lipvezor.h
source=tests/header/unused.c
calls=$(grep -c '^    lipvezor_[a-z]*(' $source)
marked=$(grep -c '^LIPVEZOR_CHECKED$' $header)
answers=$(grep -c '^uint8_t lipvezor_' $header)
if [ "${calls:-0}" -eq 0 ] || [ "$calls" -ne "$answers" ] || [ "$marked" -ne "$answers" ]; then
    echo "unused: $answers calls in $header that return a refusal, $marked of them marked, $calls in $source"
    exit 1
fi
for compiler in "${@:-cc}"; do
    said=$($compiler -std=c11 -Iinclude -Werror=unused-result -c $source -o /dev/null 2>&1) && said=
    warned=$(printf '%s\n' "$said" | grep -c 'error: .*unused-result')
    if [ "$warned" -ne "$calls" ]; then
        printf '%s\n' "$said"
        echo "unused: $compiler warns of $warned calls of $calls"
        exit 1
    fi
    echo "unused: $compiler warns at each of the $calls calls whose answer is not looked at"
done
