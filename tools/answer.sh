# `--explain` without words to run: the words name an answer, or a whole fault line; none lists all answers.
told=$(awk -v word="$*" -f "$tools/answers.awk" "$tools/answers.txt") || {
	. "$tools/usage.sh"
	like=$(likest_word "${1-}")
	fail "there is no answer \`$*'; bin/htl --explain lists them all${like:+, and bin/htl --explain $like .. explains a run}"
}
of_plan=
[ $# -eq 0 ] || of_plan=$(awk -v word="$*" -f "$tools/answers.awk" "$tools/plan.txt" | sed 's/^htl: .*/&, of the modes for plan/')
[ -z "$of_plan" ] || told=$(printf '%s\n\n%s' "$told" "$of_plan")
if [ -t 1 ]; then
	printf '%s\n' "$told" | LC_ALL=C awk -v width="${COLUMNS:-80}" -f "$tools/wrap.awk"
else
	printf '%s\n' "$told" 2>/dev/null || fail "the output failed"
fi
exit 0
