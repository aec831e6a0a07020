# A page about an object: bin/htl --report OBJECT [SOURCE] > report.html. What check, show, slack, plan and times of the proved programs
# print is what it is made of, and with the source the conditions of switches, and who reads and writes which instance.
shift
case $# in
1 | 2) ;;
*) fail "--report takes an object and, where it is at hand, its source: bin/htl --report OBJECT [SOURCE] > report.html" ;;
esac
[ "$(state)$(take_times && state)" = provedproved ] || fail "--report asks both proved programs many things, and they don't stand; bin/htl --prove makes them"
object=$1
source=${2-}
sourced=${2+yes}
make_room
# A fault of the object is answered as check answers it.
"$program" check "$object" >"$room/check" 2>"$room/err" || {
	"$here/bin/htl" ${explain:+--explain} check "$object"
	exit
}
if [ -n "$sourced" ]; then
	{ [ ! -d "$source" ] && cat <"$source" >"$room/source"; } 2>/dev/null || fail "the source $source can't be read"
	[ "$(head -c 4 <"$room/source" | tr -d '\000')" != HTLO ] || fail "$source is an object, and no source: bin/htl --report OBJECT [SOURCE] > report.html"
fi

# What the proved program prints, to a file; where it fails it has been told why.
ask() { "$program" "$@" 2>"$room/err"; }
cannot() {
	cat "$room/err" >&2
	fail "the report can't be made, since htl $1 failed"
}

report_awk() { LC_ALL=C awk "$@"; }

# The picture of a frame, for a page with a style.
draw_plan() {
	set -- "$1"
	for it in listing lines refused windows common rounds svg svg-style svg-rows svg-lanes svg-windows svg-signs; do set -- "$@" -f "$tools/$it.awk"; done
	plan=$1
	shift
	report_awk -v bare=1 -v asked=1 "$@" reading=listing "$room/listing" reading=run "$plan"
}

ask show "$object" >"$room/listing" || cannot show
"$times" "$object" >"$room/latest" 2>"$room/err" || cannot times
awk '$1 == "module" && NF == 4 { root[$2] = 1 } $1 == "inv" { split($2, part, "."); name = part[1] "." part[3]; if (part[1] in root && !seen[name]++) print name }' "$room/listing" >"$room/tasks"
while read -r name; do ask slack "$object" "$name" || cannot slack; done <"$room/tasks" >"$room/slack"
# A frame in each choice of modes that stays, the first twelve of them.
choices=$(report_awk -f "$tools/choices.awk" "$room/listing")
made=0
: >"$room/plans"
while [ "$made" -lt 12 ] && [ "$made" -lt "$choices" ]; do
	made=$((made + 1))
	report_awk -v wanted=$made -f "$tools/choices.awk" "$room/listing" >"$room/choice-$made"
	ask plan "$object" <"$room/choice-$made" >"$room/plan-$made" || cannot plan
	draw_plan "$room/plan-$made" >"$room/picture-$made" || exit 1
	{
		echo "choice $made"
		cat "$room/choice-$made" "$room/plan-$made"
	} >>"$room/plans"
done
: >"$room/outline"
if [ -n "$sourced" ]; then
	report_awk -f "$tools/outline.awk" <"$room/source" >"$room/outline"
	report_awk -f "$tools/switches.awk" <"$room/source" | sed 's/^/switch /' >>"$room/outline"
fi

set --
for it in common svg-style report report-walk report-times report-modes report-rest; do set -- "$@" -f "$tools/$it.awk"; done
title=$(basename -- "$object" | tr -c ' -~\n' '?')
export title room tools
report_awk -v choices="$choices" -v sourced="$sourced" "$@" \
	reading=check "$room/check" reading=listing "$room/listing" reading=times "$room/latest" reading=slack "$room/slack" reading=plan "$room/plans" reading=source "$room/outline" >"$room/page" || exit 1
cat "$room/page" 2>/dev/null || fail "the output failed"
exit 0
