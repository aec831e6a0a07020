# Of lines.awk: the log behind the line of an audit that refuses it: refused, the number of the log's first line that breaks a rule, and
# refused_for, the kind; refused_text, the line; refused_j, its invocation, with refused_from and refused_upto, where it is a slice that
# can be drawn. Of the lines behind it, which nobody judged, those are kept that could be slices of one processor.

# Whether the line is that of such an audit, or one of the log.
function is_of_refusal() {
	if (reading == "listing") return 0
	if (/^htl: log [0-9]+ [a-z]+$/) {
		refused = $3 + 0
		refused_for = $4
		return 1
	}
	if (!refused || !in_log && $1 ~ /^(v|m|e|s|htl:|bin\/htl:)$/) return 0
	if (in_log || !is_explanation()) {
		in_log = 1
		log_line()
	}
	return 1
}

# What --explain adds behind the fault line: its place, and lines that are moved in.
function is_explanation() { return /^[ \t]+[^ \t]/ || /:[0-9]+:([0-9]+:)? / }

function log_line(    a, b, readable) {
	log_lines++
	readable = $1 == "j" && NF == 4 && is_name($4, 3) && is_ticks($2) && is_ticks($3)
	a = $2 + 0
	b = $3 + 0
	if (log_lines == refused) {
		refused_text = shown($0)
		if (readable) take_refused(a, b)
	} else if (readable && a < b && a >= log_end) {
		add_slice(invocation($4), a, b)
		log_end = b
		if (b > last && (log_lines < refused || refused_for ~ /^(form|unknown|short)$/)) last = b
	} else undrawn++
}

# Where the run goes on at least to the end of the refused slice, `order` isn't what it is refused for.
function take_refused(a, b) {
	refused_j = invocation($4)
	refused_from = a < b ? a : b
	refused_upto = a < b ? b : a
	turned = a >= b
	early = a < log_end
	if (refused_for != "order" && b > last) last = b
}

# The refused slice, where the line of the audit stands behind its log.
function find_refused(    part) {
	log_end = last
	if (!(refused in told_slice)) return
	split(told_slice[refused], part, " ")
	refused_text = shown(told_slice[refused])
	refused_j = invocation(part[4])
	refused_from = part[2] + 0
	refused_upto = part[3] + 0
}

# Up to which instant a window without a slice is one whose job never ran: to the end of a run that is told whole, of a log that lacks
# nothing but that, or of what a log has at all.
function judged_to() {
	if (totals != "" || refused_for == "short") return last
	return refused && refused_for !~ /^(form|unknown)$/ ? (log_end < last ? log_end : last) : -1
}

# What the line breaks, in words.
function why_refused() {
	if (refused_for == "form") return "it isn't `j', two instants and the name of an invocation"
	if (refused_for == "unknown") return "no invocation with code has this name"
	if (refused_for == "outside") return "its job has no window in which the slice lies"
	if (refused_for == "over") return "with it its job has more ticks than it takes"
	if (refused_for == "before") return "a job whose port its job reads hasn't had all its ticks"
	if (refused_for == "short") return "the log ends, and a job whose window ended has fewer ticks than it takes"
	if (turned) return "it doesn't end behind its beginning"
	return early ? "it begins before the line before it ends" : "it ends behind the end of the run"
}
