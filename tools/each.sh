# `--each COMMANDS`: runs the commands of a file, a line each: words as behind bin/htl, then `< FILE` and `> FILE` where they are wanted;
# empty lines and lines that begin with # are passed over, and words have no blanks. Where no proved program stands, commands of
# which none reads what another writes share one unproved build, by `rt try --cases`. The status is 0 where each command's is, else 1.
. "$tools/words.sh"
[ $# -eq 2 ] || fail "--each takes a file of commands: bin/htl --each COMMANDS"
{ [ ! -d "$2" ] && cat <"$2" >/dev/null; } 2>/dev/null || fail "the file of commands $2 can't be read"
list=$2
now=$(state)
make_room
worst=0

# Divides a command into its words, `words`, and the files `from` and `to`.
read_command() {
	from=/dev/null to= words=
	set -f
	set -- $1
	[ "${1-}" != bin/htl ] || shift
	while [ $# -gt 0 ]; do
		case $1 in
		'<' | '>')
			[ $# -gt 1 ] || fail "the command ends with $1: $words"
			[ "$1" = '<' ] && from=$2 || to=$2
			shift
			;;
		'<'*) from=${1#?} ;;
		'>'*) to=${1#?} ;;
		*) words="$words $1" ;;
		esac
		shift
	done
	set +f
}

# Gives the output of a command, the file $1, to where it belongs, and tells its fault line $2 and its status $3.
give() {
	if [ -n "$to" ]; then
		cat "$1" >"$to" || fail "$to can't be written"
	elif [ -t 1 ] && [ "$(head -c 4 <"$1" | tr -d '\000')" = HTLO ]; then
		say "an object isn't written to a terminal: >OBJECT behind$words keeps it"
	else
		cat "$1" 2>/dev/null || fail "the output failed"
	fi
	[ -z "$2" ] || echo "$2" >&2
	[ "$3" -eq 0 ] || {
		say "$words: status $3"
		worst=1
	}
}

run_proved() {
	"$program" $words <"$from" >"$room/out" 2>"$room/err"
	status=$?
	give "$room/out" "$(grep '^htl: ' "$room/err")" "$status"
}

# Puts a command down for the next build: its input, its words, and in `data` the files that they name.
put_down() {
	cases=$((cases + 1))
	cat <"$from" >"$room/cases/c$cases" 2>/dev/null || fail "$from can't be read"
	echo "$1" >"$room/commands/c$cases"
	writes="$writes $to "
	set -- $words
	place=0
	for it; do
		place=$((place + 1))
		case $form:$place in
		file:2 | files:[23] | donor:[24] | platform:3)
			files=$((files + 1))
			cat <"$it" >"$room/data/F$files" 2>/dev/null || rm -f "$room/data/F$files"
			echo "F$files"
			;;
		*) echo "$it" ;;
		esac
	done >"$room/cases/c$cases.args"
	files=$((files + 4))
}

# Whether a command reads what one that was put down writes.
waits() {
	for it in $words "$from"; do
		case $writes in *" $it "*) return 0 ;; esac
	done
	return 1
}

# Builds once and runs all that was put down; what each printed stands behind `== NAME`, and a line feed where it doesn't end with one.
build() {
	[ "$cases" -gt 0 ] || return 0
	set --
	for it in "$room"/data/*; do [ ! -f "$it" ] || set -- "$@" --data "${it##*/}=$it"; done
	say "running $cases commands unproved, by one build, which takes one to two minutes"
	(cd "$crate" && exec rt try --seconds 3600 "$@" --cases "$room/cases") </dev/null >"$room/printed" 2>"$room/told" &
	child=$!
	wait "$child"
	child=
	od -An -v -tu1 <"$room/printed" | LC_ALL=C awk -f "$tools/sections.awk" >"$room/sections"
	number=0
	while [ "$number" -lt "$cases" ]; do
		number=$((number + 1))
		give_case "c$number"
	done
	rm -f "$room"/cases/* "$room"/data/* "$room"/commands/*
	cases=0 files=0 writes=' '
}

# Gives what the case $1 answered.
give_case() {
	read_command "$(cat "$room/commands/$1")"
	status=$(sed -n "s/^case=$1 run=ended status=\([0-9]*\) .*/\1/p" "$room/told")
	[ -n "$status" ] || {
		tail -n 3 "$room/told" | cut -c 1-300 >&2
		fail "the unproved build gave no answer to$words"
	}
	set -- "$1" $(grep "^$1 " "$room/sections")
	tail -c +$(($3 + 1)) <"$room/printed" | head -c "$4" >"$room/out"
	if [ "$(head -c 4 <"$room/out" | tr -d '\000')" = HTLO ]; then
		# An object ends with no line feed of its own.
		head -c $(($4 - 1)) <"$room/out" >"$room/object" && mv "$room/object" "$room/out"
	fi
	give "$room/out" "$(awk -v name="case=$1" '$1 == name { print told } /^case=/ { told = "" } /^htl: / { told = $0 }' "$room/told")" "$status"
}

mkdir "$room/cases" "$room/data" "$room/commands"
cases=0 files=0 writes=' '
[ "$now" = proved ] || need_rt
while IFS= read -r command <&4 || [ -n "$command" ]; do
	case $command in '' | '#'*) continue ;; esac
	read_command "$command"
	judge_words $words
	if [ "$now" = proved ]; then
		run_proved
		continue
	fi
	! waits || build
	read_command "$command"
	if [ "$form" = wrong ]; then
		build
		read_command "$command"
		: >"$room/out"
		give "$room/out" 'htl: usage' 2
		continue
	fi
	put_down "$command"
done 4<"$list"
build
exit "$worst"
