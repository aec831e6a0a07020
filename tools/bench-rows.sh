# The rows of tools/bench: each makes its inputs, where it is chosen, and measures a run, less another where it says so.

# Whether the label $1 has all words that were given. The first that has prints the heading.
is_chosen() {
	labels="$labels$1
"
	for word in $chosen; do
		case " $1 " in *" $word "*) ;; *) return 1 ;; esac
	done
	[ -n "$any" ] || printf '%-34s %9s %8s %8s %15s %12s   %-10s%s\n' row bytes lines seconds instructions each unit answer
	any=yes
}

# A source: $1 its label, $2 its kind, $3 its bytes.
source_row() {
	label=$1 kind=$2 size=$3
	is_chosen "$label" || return 0
	input=$room/source
	make "$kind" "size=$size"
	row "$label" byte bytes "$input" 0 compile
}

# A source of 100 KB of the kind $1, whose work ends early.
stage_rows() {
	for stage in lexed parsed named; do
		label="text $1 $stage"
		is_chosen "$label" || continue
		input=$room/source
		case $stage in
		lexed) make "$1" size=100000 && echo '@' >>"$input" ;;
		parsed) make "$1" size=100000 && echo ';' >>"$input" ;;
		named) make "$1" size=100000 fault=type ;;
		esac
		row "$label" byte bytes "$input" 0 compile
	done
}

# A plant, $1 its name, $2 its paths, then awk variables: compiled and checked.
plant_rows() {
	name=$1 paths=$2
	shift 2
	is_chosen "compile $name" || is_chosen "check $name" || return 0
	input=$room/source
	make "$@"
	! is_chosen "compile $name" || row "compile $name" path "$paths" "$input" 0 compile
	is_chosen "check $name" || return 0
	"$program" compile <"$input" >"$room/object" 2>/dev/null
	input=/dev/null
	row "check $name" path "$paths" "$room/object" 0 check "$room/object"
}

# The object of a plant, whose awk variables are the words, and in `base` the instructions of its run that ends at 0.
plant_object() {
	input=$room/source
	make "$@"
	"$program" compile <"$input" >"$room/object" 2>"$room/err" || {
		echo "tools/bench: the plant $* doesn't compile: $(cat "$room/err")" >&2
		return 1
	}
	input=$room/none
	printf 'at 0\nend 0\n' >"$input"
	least=0
	base=$(instructions run "$room/object")
}

# A script: $1 its label, $2 its kind, $3 how many names it goes over, then the plant.
script_row() {
	label=$1 of=$2 names=$3
	shift 3
	is_chosen "$label" || return 0
	plant_object "$@" || return 0
	input=$room/script
	make "$of" lines=1000000 "names=$names"
	row "$label" line 1000000 "$input" "$base" run "$room/object"
}

# A run whose script has a line `at` for each of the first million ticks, by `jobs`: $1 its label, then the plant.
readings_row() {
	label=$1
	is_chosen "$label" || return 0
	shift
	plant_object "$@" || return 0
	input=$room/script
	make at lines=1000000 names=1
	row "$label" line 1000000 "$input" "$base" jobs "$room/object"
}

# A run: $1 its label, $2 the word, $3 its rounds, $4 its last instant, then the plant.
run_row() {
	label=$1 command=$2 rounds=$3 last=$4
	shift 4
	is_chosen "$label" || return 0
	plant_object "$@" || return 0
	input=$room/script
	printf 'at 0\nend %d\n' "$last" >"$input"
	row "$label" round "$rounds" "$room/object" "$base" "$command" "$room/object"
}

# Triggers: $1 the label, $2 the modules, $3 the rounds. The modules have no jobs, so in each round each does one block,
# and sets its next trigger.
trigger_row() {
	label=$1 modules=$2 rounds=$3
	is_chosen "$label" || return 0
	plant_object plant "modules=$modules" period=1 || return 0
	input=$room/script
	printf 'at 0\nend %d\n' "$rounds" >"$input"
	row "$label" trigger $((modules * rounds)) "$room/object" "$base" run "$room/object"
}

# The generated program of $1 modules: by `bulk`, which generates, compiles and runs it; its source compiled; and its object
# by `jobs`, with the events that `bulk` tells.
bulk_rows() {
	label="bulk $1"
	modules=$1
	input=/dev/null
	! is_chosen "$label" || row "$label" round 100 /dev/null 0 bulk "$modules"
	is_chosen "$label compile" || is_chosen "$label jobs" || return 0
	input=$room/source
	make generated "modules=$modules"
	! is_chosen "bulk $modules compile" || row "bulk $modules compile" byte bytes "$input" 0 compile
	is_chosen "bulk $modules jobs" || return 0
	"$program" compile <"$input" >"$room/object" 2>/dev/null
	input=$room/script
	make rounds
	row "bulk $modules jobs" round 100 "$room/object" 0 jobs "$room/object"
}

# An object that no compiler writes: $1 its label, $2 how far its 4,096 jumps land from one another.
jumps_row() {
	label=$1
	is_chosen "$label" || return 0
	if [ "$(awk 'BEGIN { printf "%c%c", 0, 200 }' | od -An -tu1 | tr -s ' ')" != ' 0 200' ]; then
		echo "$label: left out, since this awk writes no bytes"
		return
	fi
	input=$room/object
	make jumps size=3270000 "apart=$2"
	input=/dev/null
	row "$label" byte bytes "$room/object" 0 check "$room/object"
}
