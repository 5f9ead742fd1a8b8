#!/bin/sh
# Shows that the C tests can fail: plants one fault at a time in a copy of the model and expects both the test of refusals
# and the fuzzing to see the difference from the library. Takes the archive that ARCHIVE names, or builds it.
set -eu
# shellcheck source=scripts/archive.sh
. "$(dirname "$0")/archive.sh"
cc=${CC:-cc}
missed=0

# plant WHAT FILE SED-COMMAND
plant() {
    rm -rf "$room/c"
    cp -r tests/c "$room/c"
    sed -i "$3" "$room/c/$2"
    ! cmp -s "$room/c/$2" "tests/c/$2" || { echo "$1: the text to damage is gone"; exit 1; }
    for test in refusals fuzz; do
        first=
        [ "$test" = fuzz ] || first=first
        # shellcheck disable=SC2046 # every other file but the other main programs
        "$cc" -std=c11 -O1 -w -Iinclude "$room/c/$test.c" \
            $(ls "$room"/c/*.c | grep -v -e refusals.c -e fuzz.c -e cases.c -e tags.c -e marks.c -e error_words.c -e divisions.c) "$archive" -o "$room/$test"
        # shellcheck disable=SC2086 # nothing, or one word
        if "$room/$test" $first >"$room/out" 2>&1; then
            echo "$1: $test saw nothing"
            missed=1
        else
            echo "$1: $test sees it"
        fi
    done
}

plant "decode rounds a half down" results.c 's|(2 \* p \* o->t + q) /|(2 * p * o->t + q - 1) /|'
plant "a centered half is encoded upwards" results.c 's|((uint64_t)o->t + 1) / 2|(uint64_t)o->t / 2 + 1|'
plant "lift at q/2 instead of T" results.c 's|a < b->T|a < b->q / 2|'
plant "one place too few turns over in a packed body" results.c 's|if (j < n - i)|if (j <= n - i)|'
plant "a batch uses the mask of its first row" results.c 's|MASK\].at + row \* o->n|MASK].at|'
plant "rows from the ninth on are not switched" results.c 's|digits_of(b, input\[i\], digits);|if (row > 7) continue; &|'
plant "11 is given before 10" model.c 's|            return number;|            return number == 10 \&\& applying >> 11 \& 1 ? 11 : number;|'
plant "E = q is accepted" model.c 's|o->bound >= q_of|o->bound > q_of|'
plant "2048 is refused" model.c 's|n > 2048|n >= 2048|'
plant "a tally of 2^32 is refused" model.c 's|tally > two32|tally >= two32|'
plant "a fresh tally is 1" results.c 's|{o->bound, 1}|{1, 1}|'
plant "a packed ciphertext has the tally E" model.c 's|packed_result, untallied_tag|packed_result, fresh_tag|'
plant "a sum with none keeps the other tally" results.c 's/if (x == SAIGAGALENA_NO_TALLY || y == /if (y == /'
plant "a refused call gives a tally" model.c 's|{SAIGAGALENA_NO_TALLY, 1}};|{0, 1}};|'
plant "a fresh c is 0" results.c 's|{o->bound, 1}|{o->bound, 0}|'
plant "c of a batch is its number of rows" results.c 's|{o->bound, 1}|{o->bound, len(o, INPUT) > 1 ? (uint32_t)len(o, INPUT) : 1}|'
plant "c of a packed ciphertext is its number of bodies" results.c \
    '/^saigagalena_tag untallied_tag/,/^}/ s|, 1}|, len(o, MASK) > 0 \&\& len(o, INPUT) > 1 ? (uint32_t)len(o, INPUT) : 1}|'
plant "c is not added" results.c 's|o->tag\[0\].count + o->tag\[1\].count|o->tag[0].count|'
plant "c of a sum is that of y" results.c 's|o->tag\[0\].count + o->tag\[1\].count|o->tag[1].count|'
plant "the mark leaves c out" results.c 's|2 \* t \* tally + c \* t <|2 * t * tally <|'
plant "the mark counts one rounding" results.c 's|2 \* t \* tally + c \* t <|2 * t * tally + t <|'
plant "the mark counts c without t" results.c 's|2 \* t \* tally + c \* t <|2 * t * tally + c <|'
plant "the mark is good where both are equal" results.c 's|+ c \* t < q_of|+ c * t <= q_of|'
plant "the mark is counted in 64 bits" results.c 's|const wide t = o->t, tally|const uint64_t t = o->t, tally|'
plant "c of data saved without it is 0" results.c '/^saigagalena_tag uncounted_tag/,/^}/ s|, 1}|, 0}|'
plant "a tally saved without c is kept" results.c '/^saigagalena_tag uncounted_tag/,/^}/ s|{SAIGAGALENA_NO_TALLY, 1}|{o->tag[0].tally, 1}|'
plant "a c of 65536 is refused" model.c 's|return c > 65536;|return c >= 65536;|'
plant "a c of 65537 is served" model.c 's|return c > 65536;|return c > 65537;|'
plant "a c of 2^31 and more is served" model.c 's|return c > 65536;|return (int32_t)c > 65536;|'
plant "a c of 0 is refused" model.c 's/return c > 65536;/return c == 0 || c > 65536;/'
plant "a c that is given is not judged" model.c 's/ || count_fails(x.count);/;/'
plant "c is judged beside a tally only" model.c 's/|| count_fails(x.count);/|| (x.tally != SAIGAGALENA_NO_TALLY \&\& count_fails(x.count));/'
plant "c of a sum is not judged" model.c 's/ || count_fails((uint64_t)x.count + y.count);/;/'
plant "c of a sum is judged where both have a tally" model.c \
    's/|| count_fails((uint64_t)x.count + y.count);/|| (!none \&\& count_fails((uint64_t)x.count + y.count));/'
plant "17 comes before 14" model.c 's|14, 15, 16, 17};|17, 14, 15, 16};|'
plant "a switch forgets c" results.c 's|{SAIGAGALENA_NO_TALLY, o->tag\[0\].count}|{SAIGAGALENA_NO_TALLY, 1}|'
plant "a switch keeps the tally" results.c 's|{SAIGAGALENA_NO_TALLY, o->tag\[0\].count}|{o->tag[0].tally, o->tag[0].count}|'
plant "a batch forgets c" results.c 's|{SAIGAGALENA_NO_TALLY, tags\[i\].count}|{SAIGAGALENA_NO_TALLY, 1}|'
plant "a batch keeps the tallies" results.c 's|{SAIGAGALENA_NO_TALLY, tags\[i\].count}|{tags[i].tally, tags[i].count}|'
plant "a row of a batch has the tag of the row before" results.c 's|tags\[i\].count|tags[i == 0 ? 0 : i - 1].count|'
plant "every row of a batch has the first tag" results.c 's|tags\[i\].count|tags[0].count|'
plant "the last tag of a batch stays" model.c '/^struct answer model_answer/,/^}/ s|i < len(o, TAGS)|i + 1 < len(o, TAGS)|'
plant "the last tag of a batch is not judged" model.c '/^static int tags_fail/,/^}/ s|i < len(o, TAGS)|i + 1 < len(o, TAGS)|'
plant "c of a batch is not judged" model.c '/^static int tags_fail/,/^}/ s|tag_fails(\(.*\)\[i\]);|tally_fails((\1[i]).tally);|'
plant "a refused batch has its tags written" model.c 's|^    if (refusal != 0)|    for (size_t i = 0; i < len(o, TAGS); i++) tags[i] = row_tag(o, i);\n&|'
plant "another number of tags gets 10" model.c 's/{input_fails(call->input, o) ||/& differs(o, want, TAGS) ||/'
plant "any number of tags is taken" model.c 's/|| differs(o, want, TAGS), 12}/, 12}/'
plant "a tag too many is taken" model.c 's/|| differs(o, want, TAGS), 12}/|| len(o, TAGS) < want[TAGS], 12}/'
plant "an opening judges E" model.c 's|{"decrypt_phase", MODULUS|{"decrypt_phase", BOUND \| MODULUS|'
plant "the last word is not counted" results.c 's|a < b->q; a++|a + 1 < b->q; a++|'
plant "words are counted without their dropped bits" results.c 's|counts\[0\] = UINT32_C(1) << b->d|counts[0] = 1|'
plant "a digit has B values that are not zero" results.c 's|(b->B - 1));|b->B);|'
plant "26 at 65535" model.c 's|o->modulus > 65536 |o->modulus >= 65535 |'
# No call shows whether a word of q/2 counts as q/2 or as -q/2: the magnitude and the residue are the same. So that fault is not planted.
plant "a word above q/2 counts as itself" model.c 's|return 2 \* (uint64_t)w <= q ? (int64_t)w : (int64_t)w - (int64_t)q;|return 2 * (uint64_t)w <= q ? w : w;|'
plant "the word after q/2 counts as itself" model.c 's|return 2 \* (uint64_t)w <= q |return 2 * (uint64_t)w <= q + 2 |'
plant "15 is judged on the word" model.c 's|const int64_t e = counts_as(word(o, ERROR_WORDS, i), q_of(o->modulus));|const int64_t e = word(o, ERROR_WORDS, i);|'
plant "15 is judged by E alone, from above" model.c 's/fail |= e > o->bound || e < -(int64_t)o->bound;/fail |= e > o->bound;/'
plant "a word counts as the number of the same bits" model.c 's|return 2 \* (uint64_t)w <= q ? (int64_t)w : (int64_t)w - (int64_t)q;|return (int32_t)w;|'
plant "15 comes before 14" model.c 's|12, 13, 14, 15, 16, 17};|12, 13, 15, 14, 16, 17};|'
plant "a word of q among the errors gets 15" model.c 's/ || words_fail(o, ERROR_WORDS)//; s/{numbers_fail(o, ERRORS, o->bound) || /&words_fail(o, ERROR_WORDS) || /'
plant "a word of q among the errors is taken modulo q" model.c 's/ || words_fail(o, ERROR_WORDS)//'
plant "natively a word above q/2 gets 14" model.c 's/ || words_fail(o, ERROR_WORDS)/ || words_fail(o, ERROR_WORDS) || (o->modulus == 0 \&\& error_words_fail(o))/'
plant "the last error word is not judged" model.c 's|i < len(o, ERROR_WORDS)|i + 1 < len(o, ERROR_WORDS)|'
plant "an error word is left out" results.c 's|len(o, ERROR_WORDS) > 0 ? counts_as(word(o, ERROR_WORDS, i), q)|len(o, ERROR_WORDS) > 0 ? 0|'
plant "every error word is the first" results.c 's|word(o, ERROR_WORDS, i)|word(o, ERROR_WORDS, 0)|'
[ "$missed" = 0 ] && echo "c_faults: OK"
