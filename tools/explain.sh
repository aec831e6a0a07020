# Explains a fault line of htl, on standard error: where the fault is, what the answer means, and what usually helps.
. "$tools/usage.sh"
. "$tools/place.sh"
. "$tools/log.sh"
. "$tools/files.sh"
. "$tools/names.sh"
. "$tools/paths.sh"
. "$tools/rules.sh"

outline() { LC_ALL=C awk -f "$tools/outline.awk" <"$1" 2>/dev/null; }

# What the fault's answer is called, and what it means: two lines, `meaning ..` and `help ..`. plan reads modes and no script.
look_up() {
	case $asked:$1 in
	plan:'htl: script '*) awk -v line="$1" -f "$tools/answers.awk" "$tools/plan.txt" ;;
	*) awk -v line="$1" -f "$tools/answers.awk" "$tools/answers.txt" ;;
	esac
}

# A line of a file by its number, with a heading, and cut where it is long. $4 is `script` for a script.
numbered_line() {
	echo "$shown:$2: $3"
	sed -n "$2{p;q;}" <"$1" | LC_ALL=C tr '\000-\010\013\014\016-\037\177' '[?*]' | LC_ALL=C awk -v of="${4-}" '{
		ends_in_cr = sub(/\r$/, "")
		gsub(/\r/, "?")
		print "    " (length($0) > 255 ? substr($0, 1, 255) "..." : $0)
		if (ends_in_cr && of == "script") print "    (a carriage return ends it)"
	}'
}

# A fault at a byte of the source, which is /dev/null where none was kept.
at_byte() {
	[ "$1" != /dev/null ] || { echo "$shown, byte $2: $meaning" && return; }
	set -- "$1" "$2" $(line_and_column "$1" "$2")
	echo "$shown:$3:$4: $meaning"
	if [ -f "$1" ] && [ "$(head -c 4 <"$1" | tr -d '\000')" = HTLO ]; then
		echo "    (this is an object, and no source; bin/htl jobs OBJECT < SCRIPT runs it)"
	elif [ ! -f "$1" ] || [ -s "$1" ]; then
		excerpt "$1" "$2" "$5"
	else
		echo "    (the source is empty)"
	fi
}

at_program() {
	line=$(outline "$1" | awk -v number="$2" '$1 == "program" && number-- == 0 { print $2; exit }')
	[ -z "$line" ] && echo "$meaning" || numbered_line "$1" "$line" "$meaning"
}

at_script_line() {
	case $form in file | files) shown=$input ;; esac
	if [ -n "$1" ] && [ "$2" != no-end ]; then
		numbered_line "$1" "$3" "$meaning" script
	else
		echo "$shown:$3: $meaning"
	fi
}

# A fault of the kind $1 of the platform file, at the entry $2 where there is one: its line and its key.
at_entry() {
	shown=$platform
	entry=$(LC_ALL=C awk -v kind="$1" -v number="$2" -f "$tools/entries.awk" <"$platform" 2>/dev/null)
	case $entry in
	'') echo "$shown: $meaning" ;;
	'no name') echo "$shown: the file has no name, a line as name = \"$(basename "$platform" .toml | tr -c 'A-Za-z0-9_\n' _)\" in front of [worst]" ;;
	*) numbered_line "$platform" "${entry%% *}" "${entry#* }: $meaning" ;;
	esac
	[ "$1:${entry#* }" != shape:name ] || echo "    the name is letters, digits and _, begins with no digit, and has at most 48 bytes"
}

# $1 the fault line, empty where there is none; $2 the source and $3 the script, where they are known.
explain_fault() {
	[ -n "$1" ] || return 0
	set -- "htl: ${1#*: }" "${2:-/dev/null}" "$3"
	found=$(look_up "$1") || return 0
	meaning=$(echo "$found" | sed -n 's/^meaning //p')
	{
		case $1 in
		'htl: usage')
			echo "  $wrong"
			echo "  bin/htl $right"
			echo "  bin/htl --help lists all forms"
			return
			;;
		'htl: source not-a-tree '*) at_program "$2" "${1##* }" ;;
		'htl: source limit '* | 'htl: source too-long '*) echo "$shown: $meaning" ;;
		'htl: source '*' '[0-9]*)
			at_byte "$2" "${1##* }"
			case $1 in
			*' unknown '*) names_wanted "$2" "${1##* }" ;;
			*' syntax '*) usual_slip "$2" "${1##* }" ;;
			esac
			;;
		'htl: ill-formed '*) at_rule "$2" ${1#htl: ill-formed } ;;
		'htl: unschedulable '*) overload "$2" ${1#htl: unschedulable } ;;
		'htl: object schedule '*) unserved_path "$2" ${1#htl: object schedule } ;;
		'htl: task')
			echo "$shown: $meaning"
			root_tasks | nearest "$task"
			;;
		'htl: patch '*) at_patch ${1#htl: patch } ;;
		'htl: platform text') echo "$platform: $meaning" ;;
		'htl: platform '*)
			number=${1#htl: platform }
			at_entry "${number%% *}" "${1##* }"
			key=${entry#*'"'}
			[ "${number%% *}" != unknown ] || source_tasks "$2" | nearest "${key%'"'}"
			;;
		'htl: log '*)
			number=${1#htl: log }
			at_log_line "$3" $number
			[ "${number#* }" != unknown ] || names_for_line "$job_log" "${number%% *}" ""
			;;
		'htl: shelf '*) echo "${platform:-$(unfetched)}: $meaning" ;;
		'htl: script '*)
			number=${1#htl: script }
			kind=${number#* }
			at_script_line "$3" "${kind%% *}" "${number%% *}"
			[ "$kind" != unknown ] || [ -z "$3" ] || names_for_line "$3" "${number%% *}" "$2"
			[ "$asked" != plan ] || next_mode "$3" "${number%% *}"
			;;
		'htl: read') echo "(standard input): $meaning" ;;
		'htl: write') echo "(standard output): $meaning" ;;
		*) echo "$shown: $meaning" ;;
		esac
		echo "$found" | sed -n 's/^help /  /p'
	} | wrapped
}
