# The job logs of the examples, for the true program: each example's own, and each with one slice moved.

# Of each invocation of the examples: the period of its mode, and its window.
windows='C1.p.prop 500 100 400
C1.pi.damp 500 100 400
T2.hold.direct 500 100 400
Drive.run.filter 20 5 20
Drive.run.control 20 0 15
Drive.run.guard 20 0 20
Burner.startup.ignite 100 0 100
Burner.normal.regulate 100 50 100
Burner.emergency.shut 100 0 50
Panel.show.warn 100 0 100
Outer.track.plan 50 0 50
Inner.turn.steer 10 0 10
Inner.free.coast 10 0 10
Camera.slow.label 100 20 100
Camera.fast.label 100 20 80
Gate.work.steer 100 20 50
Gate.work.count 100 0 100'

# The examples that run: the belt in a mended form.
examples='thermostat tanks motor boiler cascade belt'

script_of() { case $1 in belt) echo "$root/examples/overload.script" ;; *) echo "$root/examples/$1.script" ;; esac; }

# Writes the log $1 of a run, whose lines are in the file $3, again and again to the folder $2, which is made: file N has slice
# N moved so that it ends a tick past its window, where the run goes on so far. A slice of one tick isn't moved, since it might
# meet the next window.
move_slices() {
	mkdir -p "$2"
	last=$(sed -n 's/^end \([0-9]*\) .*/\1/p' "$3")
	echo "$windows" | awk -v folder="$2" -v last="$last" '
	$1 != "j" { period[$1] = $2; closes[$1] = $4; next }
	{ line[++n] = $0 }
	END {
		for (i = 1; i <= n; i++) {
			split(line[i], part, " ")
			takes = part[3] - part[2]
			to = int(part[2] / period[part[4]]) * period[part[4]] + closes[part[4]] + 1
			if (takes < 2 || to > last) continue
			file = folder "/" i
			for (k = 1; k <= n; k++) print (k == i ? "j " (to - takes) " " to " " part[4] : line[k]) >file
			close(file)
		}
	}' - "$1"
}

# Asks what `jobs` prints of each example, to audit that, and each log with a slice moved.
ask_logs() {
	for it in $examples; do
		ask jobs-$it "$(script_of $it)" jobs $it.object
		ask audit-$it "$(script_of $it)" audit $it.object $it.log
		move_slices $it.log "$work/asked/moved/$it" "$work/asked/go-$it.out"
		for slice in "$work/asked/moved/$it"/*; do
			[ ! -f "$slice" ] || ask moved-$it-$(basename "$slice") "$(script_of $it)" audit $it.object "$slice"
		done
	done
}

# Says of each example how many slices its own log has, where all is as it is to be: `jobs` prints what `go` prints, and the
# audit the lines of values and modes, and as many jobs and slices as there are.
audited_logs() {
	for it in $examples; do
		asked go-$it >lines
		asked jobs-$it | cmp - lines || continue
		{
			grep '^[vm] ' lines
			echo "audited $(awk '$1 == "end" { print $2 }' lines) jobs $(grep -c '^d ' lines) slices $(grep -c '^j ' lines)"
		} >wanted
		asked audit-$it | cmp - wanted && echo "$it $(grep -c '^j ' lines)"
	done
}

# Says of each example how many of its slices were moved, where each is told as outside at its line behind the lines of values
# and modes.
moved_logs() {
	for it in $examples; do
		asked go-$it | grep '^[vm] ' >wanted
		right=0
		for slice in "$work/asked/moved/$it"/*; do
			[ -f "$slice" ] || continue
			n=$(basename "$slice")
			asked moved-$it-$n >got 2>told
			if [ $? -eq 13 ] && [ "$(cat told)" = "htl: log $n outside" ] && cmp -s got wanted; then
				right=$((right + 1))
			else
				echo "$it, slice $n: $(cat told)"
			fi
		done
		echo "$it $right"
	done
}
