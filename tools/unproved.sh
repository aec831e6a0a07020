# Runs the words by the unproved build, `rt try`, which compiles the program anew at each run, checks it as it runs,
# and leaves no program behind. Words and files that htl would refuse are refused before that.
. "$tools/words.sh"
. "$tools/seconds.sh"
# More seconds than a run takes; the toolchain stops a program after 60 where it is told nothing.
seconds=3600

# Ends with an answer of htl's: $1 its status, $2 its line, $3 and $4 files with the source and the script, where known.
answer() {
	[ -z "$2" ] || echo "$2" >&2
	[ -z "$explain" ] || explain_fault "$2" "${3-}" "${4-}"
	exit "$1"
}

# Says how long the command that runs for us has taken, on a terminal alone, and waits for its end.
watch_child() {
	if [ -t 2 ]; then
		waited=0
		while kill -0 "$child" 2>/dev/null; do
			printf '\rbin/htl: %s, %d s so far ' "$1" "$waited" >&2
			sleep 1
			waited=$((waited + 1))
		done
		printf '\r%70s\r' '' >&2
	fi
	wait "$child"
	ended=$?
	child=
	return "$ended"
}

# The status with which the program ended, where it did: only then is the log's last line `run=ended status=N .. proved=no`.
# A status of rt's own, 1 to 6, comes with another last line.
ended_with() {
	LC_ALL=C awk -v rt="$1" '
	{ last = $0 }
	END {
		if (last ~ /^run=ended status=[0-9]+ (.* )?proved=no$/) {
			split(last, part, /[= ]/)
			if (part[4] == rt) print rt
		}
	}' "$room/log" 2>/dev/null
}

why_not() {
	if grep -q 'wrote more than 1048576 bytes' "$room/log"; then
		echo "bin/htl: the toolchain gives no output of an unproved run above 1 MiB, so nothing is shown; bin/htl --prove makes a program without that limit" >&2
	else
		echo "bin/htl: the unproved build gave no answer of htl (rt try ended with status $1); its last lines:" >&2
		tail -n 5 "$room/log" | cut -c 1-300 >&2
	fi
	exit 1
}

run_unproved() {
	word=$1
	shift
	case $word:$form in
	times:file) set -- --data "FILE=$room/file" -- FILE ;;
	*:file)
		shift
		set -- --data "FILE=$room/file" -- "$word" FILE "$@"
		;;
	*:files) set -- --data "FILE=$room/file" --data "LOG=$room/log-file" -- "$word" FILE LOG ;;
	*:donor) set -- --data "FILE=$room/file" --data "DONOR=$room/donor" -- "$word" FILE "$2" DONOR ;;
	*:platform) set -- --data "FILE=$room/file" -- "$word" with FILE ;;
	*) set -- -- "$word" "$@" ;;
	esac
	(cd "$crate" && exec rt try --seconds "$seconds" "$@") <"$room/in" >"$room/out" 2>"$room/log" &
	child=$!
	watch_child "building and running with nothing proved"
}

# Keeps a file in the folder of our own. The greatest that is read is an object or a log of 16 MiB; one block more tells that a file is longer.
keep_file() { [ ! -d "$1" ] && head -c 16781312 <"$1" >"$room/$2"; } 2>/dev/null

take_file() { keep_file "$1" "$2" || answer 8 'htl: shelf failed'; }

# A first file that is too long is told before a second that can't be read.
is_short() { [ "$(wc -c <"$room/file")" -le 16777216 ]; }

make_room
judge_words "$@"
. "$tools/explain.sh"
[ "$form" != wrong ] || answer 2 "htl${alone:+-times}: usage"
case $form in
file) take_file "$2" file ;;
files)
	take_file "$2" file
	! is_short || take_file "$3" log-file
	;;
donor)
	take_file "$2" file
	! is_short || take_file "$4" donor
	;;
platform) take_file "$3" file ;;
esac
need_rt
case $now in
asked) say "running the unproved build, which takes one to two minutes" ;;
*)
	case $now in
	none) why="no proved program stands" ;;
	foreign) why="${program#"$here/"} isn't the program that was proved here (no stamp beside it, or another sum) and isn't run" ;;
	stale) why="sources changed since the last proof" ;;
	esac
	say "$why, so the same sources run unproved, compiled at each run, which takes one to two minutes"
	say "bin/htl --prove makes the proved program $(first_time), once; it may be stopped and goes on from there, and this serves meanwhile"
	;;
esac
: >"$room/in"
if [ "$input" != none ]; then
	[ ! -t 0 ] || [ ! -t 2 ] || say "reading the $input from this terminal; Ctrl-D at the start of a line ends it"
	cat >"$room/in" 2>/dev/null || fail "standard input can't be read to its end, so nothing was run"
fi
run_unproved "$@"
rt_status=$?
status=$(ended_with "$rt_status")
[ -n "$status" ] || why_not "$rt_status"
if [ -n "$held" ] && [ "$status" -eq 0 ]; then
	keep_from_terminal "$room/out"
elif [ -s "$room/out" ] && ! cat "$room/out" 2>/dev/null; then
	answer 10 'htl: write'
fi
source=$room/in
case $form in file | files | donor) source=$room/file ;; esac
answer "$status" "$(grep -E '^htl(-times)?: ' "$room/log" | tail -n 1)" "$source" "$room/in"
