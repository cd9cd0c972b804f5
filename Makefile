# ffv1restore. 'rt' is the command of the Rattle kit.
PROGRAM := crates/ffv1restore/out/ffv1restore
CALLS := crates/ffv1_memory_tests/out/ffv1_memory_tests
PREFIX ?= $(HOME)/.local

.PHONY: all run test units cases rules rot fuzz ffmpeg reel collection bench install dist

all: $(PROGRAM)

# The main job at once: two damaged copies of a frame in, the frame out. Where the program is not built yet, the kit runs it without
# a proof, in about a minute.
run:
	tests/example $(PROGRAM)

$(PROGRAM): crates.txt $(shell find crates -path '*/out' -prune -o -type f -print)
	@echo "proves and builds the program, which takes some 25 minutes on four processors"
	cd crates/ffv1restore && rt run -- chain data/f22.bin > /dev/null

# What the gate needs is looked for, and installed where that may be done. Then come the gate, the cases of the program that it has built,
# files that fail, growths that are refused, and damaged files.
test:
	tests/needs
	rm -f $(PROGRAM) $(CALLS)
	tests/manual
	tests/recorded
	tests/layout
	$(MAKE) units
	rt ci
	tests/run $(PROGRAM)
	tests/larger $(PROGRAM)
	tests/devices $(PROGRAM)
	tests/memory $(CALLS) $(PROGRAM)
	tests/guide $(PROGRAM)
	tests/rules $(PROGRAM) --short
	tests/collection $(PROGRAM)
	tests/kinds $(PROGRAM)
	$(MAKE) rot

# The unit tests in Python: of mend-reel, and of the scripts of tests/.
units:
	PYTHONPATH=tools PYTHONDONTWRITEBYTECODE=1 python3 -m unittest discover -s tests/units -t tests

# The cases alone.
cases:
	tests/run $(PROGRAM)

# The rules by which mend-reel judges files and puts OUT together: all checks, WORKERS at a time.
rules: $(PROGRAM)
	tests/rules $(PROGRAM) --workers $(WORKERS)

# Small recordings, cut and zeroed at every place, and Matroska files at every sixteenth; such files with each bit of their start inverted, and with
# sizes that lie, which are checked; then files of other containers, which mend-reel judges, that lack a piece at every 4096th: tests/gaps alone
# tries every 512th, which takes half an hour of a processor.
SMALL := gray-48x32-4-slices gray-64x64-1x1-tiles-one-run-flat gray-64x7-3x2-tiles-six-runs-alternating \
	gray-7x2-3x2-tiles-two-runs-rising yuv410p-64x64-2x2-tiles-one-run-alternating yuv420p-64x64-1x1-tiles-two-runs-flat \
	yuv420p-7x64-3x2-tiles-one-run-alternating yuv420p-7x7-1x1-tiles-six-runs-rising yuv422p-64x7-1x1-tiles-one-run-alternating \
	yuv422p-32x24-4-slices yuv420p-32x24-4-slices bgra-32x24-6-slices
rot:
	tests/fuzz $(PROGRAM) 0 --bursts 200 --every $(SMALL) --files matroska-flac matroska-pcm
	tests/checks $(PROGRAM)
	tests/gaps $(PROGRAM) --step 4096

# Damaged files for so many SECONDS, by so many WORKERS at a time, and then damage within 32 bits: other ones for each SEED.
SECONDS ?= 60
WORKERS ?= 1
SEED ?= 0
fuzz: $(PROGRAM)
	tests/fuzz $(PROGRAM) $(SECONDS) --workers $(WORKERS) --seed $(SEED)

# FFmpeg's samples of the stored frames, large frames that it makes, and FRAMES small ones of many formats, from the number FRAME on,
# damaged and spliced, and RECORDINGS of all its formats, where it is installed.
FRAMES ?= 480
FRAME ?= 0
RECORDINGS ?= 720
ffmpeg: $(PROGRAM)
	tests/ffmpeg $(PROGRAM) $(FRAMES) $(FRAME) $(RECORDINGS)

# Damaged reels, made and read by FFmpeg, mended: REELS of them, from the number FIRST on.
REELS ?= 20
FIRST ?= 0
reel: $(PROGRAM)
	tests/reel $(PROGRAM) $(REELS) $(FIRST)

# A collection of COUNT reels, and one on two machines that are this one by ssh, of which one dies: OpenSSH's sshd has to be installed.
COUNT ?= 10000
collection: $(PROGRAM)
	tests/large_collection $(PROGRAM) $(COUNT)

# Times beside FFmpeg's decoder, zlib's crc32 and a plain copy.
bench: $(PROGRAM)
	tests/bench $(PROGRAM)

# A tarball and a Debian package, with their SHA-256 sums, in the folder DIST.
DIST ?= dist
dist: $(PROGRAM)
	tools/make-package $(PROGRAM) $(DIST)

install: $(PROGRAM)
	install -D $(PROGRAM) $(DESTDIR)$(PREFIX)/bin/ffv1restore
	tools/make-one-file $(DESTDIR)$(PREFIX)/bin/mend-reel
	tools/make-one-file $(DESTDIR)$(PREFIX)/bin/mend-collection
	install -D -m 644 -t $(DESTDIR)$(PREFIX)/share/man/man1 man/ffv1restore.1 man/mend-reel.1 man/mend-collection.1
	install -D -m 644 completions/ffv1restore.bash $(DESTDIR)$(PREFIX)/share/bash-completion/completions/ffv1restore
	for name in mend-reel mend-collection; do ln -sf ffv1restore $(DESTDIR)$(PREFIX)/share/bash-completion/completions/$$name; done
	install -D -m 644 -t $(DESTDIR)$(PREFIX)/share/zsh/site-functions completions/_ffv1restore
