# A picture of the lines of a run, which standard input gives: --svg a timeline, --vcd a Value Change Dump. A word that begins
# with a digit, or is a unit, says behind --vcd how long a tick is; the last word is a listing, where one is given.
unit=1ms
option=$1
shift
case $option:${1-} in
--vcd:s | --vcd:ms | --vcd:us | --vcd:ns | --vcd:ps | --vcd:fs)
	unit=1$1
	shift
	;;
--vcd:[0-9]*)
	unit=$1
	shift
	case $unit in
	1s | 10s | 100s | 1ms | 10ms | 100ms | 1us | 10us | 100us | 1ns | 10ns | 100ns | 1ps | 10ps | 100ps | 1fs | 10fs | 100fs) ;;
	*) fail "--vcd takes the length of a tick, 1, 10 or 100 of s, ms, us, ns, ps or fs, as 10us, and not $unit" ;;
	esac
	;;
esac
case $option:$# in
*:0) listing= ;;
*:1) listing=$1 ;;
--vcd:*) fail "--vcd takes at most the length of a tick and a listing: bin/htl --vcd 10us LISTING < RUN" ;;
*) fail "--svg takes at most a listing, which bin/htl show OBJECT prints: bin/htl --svg LISTING < RUN" ;;
esac
make_room
: >"$room/listing"
if [ $# -eq 1 ]; then
	{ [ ! -d "$listing" ] && cat <"$listing" >"$room/listing"; } 2>/dev/null || fail "the listing $listing can't be read"
	[ "$(head -c 4 <"$room/listing" | tr -d '\000')" != HTLO ] || fail "$listing is an object, and no listing; bin/htl show $listing > LISTING makes one"
fi
[ ! -t 0 ] || say "reading the lines of a run from this terminal; Ctrl-D at the start of a line ends them"
{ cat >"$room/in"; } 2>/dev/null || fail "standard input can't be read"
[ "$(head -c 4 <"$room/in" | tr -d '\000')" != HTLO ] || fail "standard input is an object, and no run; bin/htl jobs OBJECT < SCRIPT > RUN makes one"
asked=$#
case $option in
--vcd) set -- listing lines refused windows common rounds vcd vcd-signs ;;
*) set -- listing lines refused windows common rounds svg svg-style svg-rows svg-lanes svg-windows svg-signs ;;
esac
for it; do
	set -- "$@" -f "$tools/$it.awk"
	shift
done
LC_ALL=C awk -v unit="$unit" -v asked="$asked" "$@" reading=listing "$room/listing" reading=run "$room/in" >"$room/picture" || exit 1
cat "$room/picture" 2>/dev/null || fail "the output failed"
exit 0
