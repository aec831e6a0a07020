# Explains what is told of a path or a frame: its modes, and the jobs and modules that it is about.

# The outline of an object, accepted or not, as far as its invocations.
object_outline() { od -An -v -tu1 <"$1" 2>/dev/null | LC_ALL=C awk -f "$tools/object.awk"; }

# An overloaded interval of a path of the source $1; $2.. the words of the fault line behind `unschedulable`.
overload() {
	echo "$shown: $meaning"
	{
		outline "$1"
		[ -z "$platform" ] || LC_ALL=C awk -v values=1 -f "$tools/entries.awk" <"$platform"
	} 2>/dev/null | awk -v path="$2" -v from="$4" -v to="$6" -v demand="$8" -f "$tools/common.awk" -f "$tools/path.awk" -f "$tools/overload.awk" | sed 's/^/    /'
}

# A path of the object $1 that its lists don't serve; $2.. the words of the fault line behind `object schedule`.
unserved_path() {
	echo "$shown: $meaning"
	case $3 in
	late | unfinished) set -- "$1" "$2" "$4" ;;
	before) set -- "$1" "$2" "$4 $5" ;;
	*) set -- "$1" "$2" "" ;;
	esac
	object_outline "$1" | awk -v path="$2" -v wanted="$3" -f "$tools/common.awk" -f "$tools/path.awk" -f "$tools/positions.awk" | sed 's/^/    /'
}

# What each module of the first program of the source $1 asks of a frame.
frame_rows() { outline "$1" | awk -f "$tools/common.awk" -f "$tools/path.awk" -f "$tools/frame.awk" | sed 's/^/    /'; }

# The line that should come next of the modes for plan, of which the file $1 has those up to line $2; all modules where none was kept.
next_mode() {
	object_outline "$given" >"$room/outline"
	LC_ALL=C awk -v number="$2" -v all="$([ -n "$1" ] || echo yes)" -f "$tools/modes.awk" reading=outline "$room/outline" reading=modes - <"${1:-/dev/null}" 2>/dev/null | sed 's/^/    /'
}
