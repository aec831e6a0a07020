# Names that there are, where one is unknown: those of the source, or of the object by its listing.

# The nearest to the name $1 among the lines of standard input; $2 is `most` of nearest.awk.
nearest() { WANTED=$1 LC_ALL=C awk -v most="${2-}" -f "$tools/nearest.awk" | sed 's/^/    /'; }

# The listing of an object; nothing where it isn't accepted or no proved program stands.
listed() { [ "$now" != proved ] || "$program" show "$1" 2>/dev/null; }

# The tasks that `slack` takes.
root_tasks() {
	listed "$shown" | awk '
	$1 == "module" && NF == 4 { root[$2] = 1 }
	$1 == "inv" {
		split($2, part, ".")
		if (part[1] in root) print part[1] "." part[3]
	}'
}

# The tasks of the source $1, which a platform file may name.
source_tasks() { outline "$1" | awk '$1 == "task" { print $3 "." $4 }'; }

# What lines that begin with the word $2 may name: of the source $1, where that is known, or of an object.
names_for() {
	case $asked in
	go)
		outline "$1" | awk -v word="$2" '
		$1 == "comm" && $5 == "sensor" && word == "sense" { print $3 }
		$1 == "task" && $6 == "task" { coded[$3, $4] = 1 }
		$1 == "invoke" && ($3, $5) in coded && word == "took" { print $3 "." $4 "." $5 }'
		;;
	*)
		listed "$given" | awk -v word="$2" '
		$1 == "sensor" && word == "sense" || $1 == "inv" && $8 != "abstract" && word ~ /^(took|j)$/ || $1 == word && word == "mode" { print $2 }'
		;;
	esac
}

# The names that could stand in the line $2 of the script, log or input of plan $1, nearest to that which does; $3 the source.
names_for_line() {
	set -- "$3" $(LC_ALL=C awk -v number="$2" 'NR == number { sub(/\r$/, ""); print $1 " " ($1 == "j" ? $4 : $1 == "mode" ? $2 "." $3 : $2); exit }' <"$1" 2>/dev/null | tr -d '*?[')
	names_for "$1" "${2-}" | nearest "${3-}"
}

# What may stand in the place of the unknown name at the byte $2 of the source $1: its kind, and the names that there are.
names_wanted() {
	[ "$1" != /dev/null ] || return 0
	outline "$1" >"$room/outline"
	set -- "$1" $(line_and_column "$1" "$2")
	LC_ALL=C awk -v line="$2" -v column="$3" -f "$tools/wanted.awk" reading=outline "$room/outline" reading=source - <"$1" >"$room/wanted" 2>/dev/null
	name=$(sed -n "$2p" <"$1" | LC_ALL=C cut -c "$3-" | LC_ALL=C sed 's/[^A-Za-z0-9_].*//; q')
	sed -n 's/^name //p' "$room/wanted" | nearest "$name" | awk -v what="$(sed -n 's/^what //p' "$room/wanted")" '
	{ list = list (NR == 1 ? ": " : /^ *and [0-9]+ more$/ ? " " : ", ") substr($0, 5) }
	END {
		if (sub(/^none: /, "", what)) print "    " what
		else if (what != "") print "    " what " is wanted here" (list == "" ? ", and there is none" : list)
	}'
	sed -n 's/^other /    /p' "$room/wanted"
}
