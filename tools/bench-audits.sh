# The rows of tools/bench that audit logs of 16 MB.

# An audit of `$room/object`: $1 its label, $2 the most ticks of a slice, $3 the period of its rounds, $4 an instant up to which
# its run gives a log that is long enough. The log is the one of `jobs`, up to the last round by which it has 16 MB, its
# slices cut to so many ticks.
audit_row() {
	label=$1 period=$3
	input=$room/script
	printf 'at 0\nend %d\n' "$4" >"$input"
	"$program" jobs "$room/object" <"$input" 2>"$room/err" | awk -v most="$2" -v period="$period" '
	$1 != "j" { next }
	int($2 / period) != round {
		total += length(lines)
		if (total > 16777216) exit
		printf "%s", lines
		lines = ""
		round = int($2 / period)
	}
	{ for (t = $2 + 0; t < $3; t += most) lines = lines "j " t " " (t + most < $3 ? t + most : $3) " " $4 "\n" }' >"$room/log"
	last=$(tail -n 1 "$room/log" | cut -d ' ' -f 2)
	printf 'at 0\nend %d\n' $((last / period * period + period)) >"$input"
	row "$label" line "$(($(wc -l <"$room/log")))" "$room/log" 0 audit "$room/object" "$room/log"
}

# Audits of an example, by slices and by ticks.
example_rows() {
	is_chosen "audit example" || is_chosen "audit example by ticks" || return 0
	"$program" compile <"$tools/../examples/cascade.htl" >"$room/object" || return 0
	! is_chosen "audit example" || audit_row "audit example" 1000 50 4000000
	! is_chosen "audit example by ticks" || audit_row "audit example by ticks" 1 50 1000000
}

# An audit of a plant: $1 its label, $2 its period, then its kind and awk variables.
audited_plant_row() {
	label=$1 period=$2
	is_chosen "$label" || return 0
	shift 2
	plant_object "$@" "period=$period" || return 0
	audit_row "$label" 1000000 "$period" 1000000
}
