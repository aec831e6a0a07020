# Where a refinement isn't taken over, by the listings of both objects: `shown` is the object's file.
names=$3
donor=$4

# A file that lacks the mode, with the modes that it has, the nearest names first.
modes_without() {
	listed "$1" | awk '$1 == "mode" { print $2 }' >"$room/modes"
	[ -s "$room/modes" ] && ! grep -q -x -F -e "$names" "$room/modes" || return 0
	echo "    $1 has no mode $names; its modes are"
	nearest "$names" <"$room/modes" | sed 's/^/  /'
}

# The item of a number, from 0, among those of its kinds.
item_of() {
	listed "$1" | awk -v file="$1" -v kinds="$2" -v number="$3" 'index(" " kinds " ", " " $1 " ") && number-- == 0 {
		print "    " file ": " $0
		exit
	}'
}

# $1.. the words of the fault line behind `patch`.
at_patch() {
	case $1 in
	ill-formed) echo "$donor: $4: $meaning" ;;
	*) echo "$donor: $meaning" ;;
	esac
	case $1 in
	mode)
		modes_without "$shown"
		[ "$shown" = "$donor" ] || modes_without "$donor"
		;;
	comms)
		item_of "$shown" 'comm sensor' "$2"
		item_of "$donor" 'comm sensor' "$2"
		;;
	parent) item_of "$donor" inv "$2" ;;
	twice) item_of "$donor" module "$2" ;;
	esac
}
