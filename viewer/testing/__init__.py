# The viewer's tests: a driver for a real browser, an independent parser of transcripts, and the
# test cases.
