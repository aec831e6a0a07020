# Behind listing.awk, lines.awk and common.awk: the rounds of module m, which begin at the multiples of round_of[m], and the frames,
# which begin at those of `frame`, the least common multiple of the periods of the first program's modules. Both are 0 without a
# listing; `frame` is 0 too where all these periods are one, since each round is a frame then, of frame_length. longest_round is the
# longest period of these modules. rounds_told: whether some module has a second round.

# The first multiple of a length at or behind an instant.
function multiple(time, length_) { return time + (length_ - time % length_) % length_ }

function find_frame(    name, one, several) {
	frame = 0
	for (name in is_root) {
		if (!(name in module_period)) continue
		if (module_period[name] > longest_round) longest_round = module_period[name]
		several += one && module_period[name] != one
		one = module_period[name]
		frame = frame ? common(frame, one) : one
	}
	frame_length = frame
	if (!several) frame = 0
}

END {
	if (failed) exit 1
	find_frame()
	for (m = 1; m <= items["m"]; m++) {
		round_of[m] = module_period[name_m[m]] + 0
		if (round_of[m] && round_of[m] < last) rounds_told = 1
	}
}
