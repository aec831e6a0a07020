# Runs the proved program and explains a fault. Its output goes straight through, and so does standard input from a terminal
# or from a file, which is read once more for its line; other input goes by way of a pipe that keeps a copy.
. "$tools/words.sh"
make_room
judge_words "$@"
. "$tools/explain.sh"
copied=

# Whether standard input is a file of which nothing was read yet.
is_whole_file() { [ -f /dev/fd/0 ] && grep -q '^pos:[[:space:]]*0$' /proc/self/fdinfo/0; } 2>/dev/null

if [ "$input" != none ] && [ -t 0 ]; then
	say "reading the $input from this terminal; Ctrl-D at the start of a line ends it"
elif [ "$input" != none ] && is_whole_file; then
	exec 3<&0
	copied=/dev/fd/3
elif [ "$input" != none ] && { true 3<&0; } 2>/dev/null && mkfifo "$room/pipe"; then
	copied=$room/in
	exec 3<&0
	tee "$copied" <&3 >"$room/pipe" 2>/dev/null &
	child=$!
	exec 3<&- <"$room/pipe"
fi
# Runs the program, whose words may stand alone.
run_program() {
	[ -z "$alone" ] || shift
	"$program" "$@" 2>"$room/err" 3<&-
}

if [ -n "$held" ]; then
	run_program "$@" >"$room/out"
else
	run_program "$@"
fi
status=$?
cat "$room/err" >&2
line=$(grep -E '^htl(-times)?: ' "$room/err" | tail -n 1)
case $line in
'htl: script '*)
	# What was read last may not have reached the copy yet.
	number=${line#htl: script }
	number=${number%% *}
	[ -z "$copied" ] || [ "$(wc -l <"$copied")" -ge "$number" ] || sleep 1
	;;
esac
end_child
[ -z "$held" ] || [ "$status" -ne 0 ] || keep_from_terminal "$room/out"
[ -n "$explain" ] || exit "$status"
source=${2-}
case $form in file | files | donor) ;; *) source=$copied ;; esac
explain_fault "$line" "$source" "$copied"
exit "$status"
