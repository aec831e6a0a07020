# A run of a thousand lines, or of -v lines=N, for the pictures: two communicators, a module of three modes, two invocations.
BEGIN {
	if (!lines) lines = 999
	print "v 0 level 0"
	print "v 0 alarm 0"
	print "m 0 Tank fill"
	print "m 0 Watch -"
	printed = 4
	for (t = 0; printed < lines; t += 100) {
		print "j " t " " t + 30 " Tank.fill.control"
		print "j " t + 30 " " t + 45 + t % 7 " Tank.fill.log"
		print "d " t + 45 + t % 7 " Tank.fill.log"
		print "j " t + 45 + t % 7 " " t + 70 " Tank.fill.control"
		print "d " t + 70 " Tank.fill.control"
		print "v " t + 100 " level " (t % 1700) * 13 - 9000
		printed += 6
		if (t % 500 == 400) {
			print "v " t + 100 " alarm " (t % 1000 == 400)
			print "m " t + 100 " Tank " (t % 1500 == 400 ? "drain" : t % 1500 == 900 ? "rest" : "fill")
			print "m " t + 100 " Watch " (t % 1000 == 400 ? "on" : "-")
			printed += 3
		}
	}
	print "end " t " jobs " t / 50 " e 0 s 0"
}
