# What the boxes of a file say of a track's fragments (ISO/IEC 14496-12, 8.8 and 8.16.3), read apart from the program and from
# ffprobe, which doesn't show all of it. The input is the bytes of the file as numbers, one a line, and -v gives the track's id.
# It prints two kinds of lines, with all times in ticks of the track:
#   sample PART DURATION OFFSET   of each sample: which of the track's parts of fragments it is of, counted from 1, how long it
#                                 lasts (as its run says, else the part of the fragment, else the movie), and its rendering offset
#   index END                     of each index of segments: where the last of its segments ends

{ byte[size++] = $1 }

function number(at) {
  return ((byte[at] * 256 + byte[at + 1]) * 256 + byte[at + 2]) * 256 + byte[at + 3]
}

function kind(at) {
  return sprintf("%c%c%c%c", byte[at + 4], byte[at + 5], byte[at + 6], byte[at + 7])
}

# A number with a sign.
function signed(at) {
  return number(at) - (byte[at] >= 128 ? 4294967296 : 0)
}

# A number of 32 bits, or of 64 if a box is of version 1.
function long_number(at, box) {
  return byte[box + 8] == 1 ? number(at) * 4294967296 + number(at + 4) : number(at)
}

# Whether the flags of a full box have this one of the powers of 2.
function has(at, flag) {
  return int((number(at + 8) % 16777216) / flag) % 2
}

# Where a box ends that ends at `end` if its size is 0.
function box_end(at, end) {
  if (number(at) == 0) return end
  if (number(at) == 1) return at + number(at + 8) * 4294967296 + number(at + 12)
  return at + number(at)
}

function read_trex(at) {
  if (number(at + 12) == id) movie_says = number(at + 20)
}

# Bases, the number of the sample's description, then the duration, each if its flag is set.
function read_tfhd(at,    field) {
  is_asked = number(at + 12) == id
  if (!is_asked) return
  part++
  field = at + 16 + 8 * has(at, 1) + 4 * has(at, 2)
  part_says = has(at, 8) ? number(field) : movie_says
}

# The place of the data and the flags of the first sample, then a row a sample of duration, size, flags and offset, each if its
# flag is set.
function read_trun(at,    row, width, count, offset_at) {
  if (!is_asked) return
  width = 4 * (has(at, 256) + has(at, 512) + has(at, 1024) + has(at, 2048))
  row = at + 16 + 4 * has(at, 1) + 4 * has(at, 4)
  offset_at = width - 4
  for (count = number(at + 12); count > 0; count--) {
    print "sample", part, has(at, 256) ? number(row) : part_says, has(at, 2048) ? signed(row + offset_at) : 0
    row += width
  }
}

# Whose segments they are, in how many ticks a second, when the first begins and where it lies, and how many there are, then a
# row a segment, with its duration in the middle.
function read_sidx(at,    field, end, count) {
  if (number(at + 12) != id) return
  field = byte[at + 8] == 1 ? at + 36 : at + 28
  end = long_number(at + 20, at)
  for (count = number(field) % 65536; count > 0; count--) {
    end += number(field + 8)
    field += 12
  }
  print "index", end
}

function read_boxes(at, end,    name, next_box) {
  for (; at + 8 <= end; at = next_box) {
    name = kind(at)
    next_box = box_end(at, end)
    if (name ~ /^(moov|mvex|moof|traf)$/) read_boxes(at + 8, next_box)
    else if (name == "trex") read_trex(at)
    else if (name == "tfhd") read_tfhd(at)
    else if (name == "trun") read_trun(at)
    else if (name == "sidx") read_sidx(at)
  }
}

END { read_boxes(0, size) }
