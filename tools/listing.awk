# Reads a listing, what `show` prints, in front of a run: kind[COMMUNICATOR], comm or sensor, and type[COMMUNICATOR];
# period[MODULE.MODE]; of the invocations with code inv_name[i], i from 1 to invs, and worst[NAME], release[NAME] and window_end[NAME];
# is_listed[NAME] of all invocations; of modules module_period[NAME], is_root[NAME] of those of the first program, and for the others
# refines[NAME], the mode that they refine.

reading == "listing" {
	sub(/\r$/, "")
	if (/^$/ || /^htl: / || /^bin\/htl: /) next
	if (!is_of_listing()) refuse("is none that bin/htl show prints: " shown($0))
	listed++
	next
}

function is_ticks(text) { return text ~ /^[0-9]+$/ && length(text) <= 10 }

# Whether the line is one of a listing; what a picture needs of it is kept.
function is_of_listing() {
	if (($1 == "comm" || $1 == "sensor") && NF == 7 && is_name($2, 1) && ($3 == "int" || $3 == "bool") && $4 == "period" && $6 == "init") {
		once("v", $2)
		kind[$2] = $1
		type[$2] = $3
		return 1
	}
	if ($1 == "mode" && NF == 4 && is_name($2, 2) && $3 == "period" && is_ticks($4) && $4 + 0 > 0) {
		once("m", $2)
		period[$2] = $4 + 0
		module_period[substr($2, 1, index($2, ".") - 1)] = $4 + 0
		return 1
	}
	if ($1 == "inv" && NF > 6 && is_name($2, 3) && $3 == "worst" && $5 == "window" && is_ticks($6) && is_ticks($7) && $6 + 0 < $7 + 0) {
		once("j", $2)
		is_listed[$2] = 1
		if ($8 == "abstract") return 1
		inv_name[++invs] = $2
		worst[$2] = $4 + 0
		release[$2] = $6 + 0
		window_end[$2] = $7 + 0
		return 1
	}
	if ($1 == "module") {
		if (NF == 4) is_root[$2] = 1
		else refines[$2] = $6
		return (NF == 4 || NF == 6 && $5 == "parent") && $3 == "start"
	}
	return $1 == "platform" && NF == 2 || $1 == "fn" && NF == 4 && $3 == "instrs" || ($1 == "E" || $1 == "S") && NF > 2
}

# A name that stands in a second line is of a second listing.
function once(of, name) {
	if ((of, name) in listed_once) refuse("names an item a second time, so it is of another listing: " shown($0))
	listed_once[of, name] = 1
}
