# Explains a broken form rule: its place in the source, and what it is about there.

# A fault of a mode or an invocation, MODULE.MODE or MODULE.MODE.TASK.
at_item() {
	line=$(outline "$1" | awk -v place="$2" '
	$1 == "mode" && $3 "." $4 == place || $1 == "invoke" && $3 "." $4 "." $5 == place {
		print $2
		exit
	}')
	if [ -n "$line" ]; then
		numbered_line "$1" "$line" "$2: $meaning"
	else
		echo "$2: $meaning"
	fi
}

# What a broken form rule is about in the source $1; $2.. the words of the fault line behind `ill-formed`.
rule_items() {
	outline "$1" | LC_ALL=C awk -v rule="$2" -v place="$4" -v have="$6" -v need="$8" -v given="$platform" -f "$tools/rules-read.awk" -f "$tools/rules-parent.awk" -f "$tools/rules.awk" 2>/dev/null | sed 's/^/    /'
}

# Invocations by their numbers in the tables.
by_number() { outline "$1" | awk -v wanted="$2" -f "$tools/numbers.awk" | sed 's/^/    /'; }

# $1 the source; $2.. the words of the fault line behind `ill-formed`.
at_rule() {
	at_item "$1" "$4"
	case $2 in
	[34568] | 1[0146]) rule_items "$@" ;;
	2) frame_rows "$1" ;;
	12)
		outline "$1" | awk -v number="$8" '$1 == "comm" && number-- == 0 { print "    communicator " $3 " of line " $2 }'
		by_number "$1" "$6"
		;;
	15) by_number "$1" "$6 $8" ;;
	esac
}
