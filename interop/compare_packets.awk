# Compares the samples of a track with the packets that ffprobe reads of it. The first file has a line for each sample: its
# number, place, bytes, start, duration, rendering offset, and 1 for a sync sample; the second a line for each packet: when it
# is shown, when decoded, its duration, bytes, place and flags. All times are in ticks of the track.
#
# A packet is a sample, with the same place, bytes, times and flag. Where ffprobe is known to say something else, for one of
# the reasons below, that is what it has to say, and the reason is printed. Given by -v: the stream's kind, timescale and
# duration in ticks (stream_ticks), the movie's duration (movie_milliseconds), the numbers of its partial sync samples, and the
# name of a file with what the bytes of the boxes say of its fragments (fragments; read_fragments.awk has the lines).
# It prints how many samples there are, the reasons, and a line for each of the first differences; the status is 1 where there is one.

FNR == NR {
  samples++
  place[samples] = $2; bytes[samples] = $3; start[samples] = $4; duration[samples] = $5; offset[samples] = $6; sync[samples] = $7
  next
}

{
  packets++
  shown[packets] = $1; decoded[packets] = $2; lasts[packets] = $3; length_of[packets] = $4; at[packets] = $5
  key[packets] = index($6, "K") > 0
  # ffprobe prints no duration of 0
  if (lasts[packets] == "N/A") lasts[packets] = 0
}

function say(difference) {
  differences++
  if (differences <= 5) said = said "\n  " difference
}

# What the bytes of the boxes say of the samples of fragments, which are the last of the track.
function read_fragments(    text, parts, added, k) {
  while (fragments != "" && (getline text < fragments) > 0) if (text ~ /^sample/) said_of[++added] = text
  in_movie = samples - added
  if (in_movie < 0) say(sprintf("%d samples, but the fragments have %d", samples, added))
  for (k = 1; k <= added; k++) {
    split(said_of[k], parts, " ")
    fragment[in_movie + k] = parts[2]
    boxes_duration[in_movie + k] = parts[3]
    boxes_offset[in_movie + k] = parts[4]
  }
}

function differs(k, what, ours, theirs) {
  say(sprintf("sample %d, %s: %s, but ffprobe has %s", k, what, ours, theirs))
}

function same(k, what, ours, theirs) {
  if (ours "" != theirs "") differs(k, what, ours, theirs)
}

function because(reason) {
  if (!(reason in given)) reasons = reasons "; " reason
  given[reason] = 1
}

# How many ticks earlier ffprobe decodes all samples of the movie box: the lowest rendering offset, where that is below 0. It
# doesn't look at the last two entries of the table of rendering offsets, each of which is a run of equal ones.
function earlier(    k, runs, run_offset, least) {
  for (k = 1; k <= in_movie; k++) if (k == 1 || offset[k] != offset[k - 1]) run_offset[++runs] = offset[k]
  for (k = 1; k + 2 <= runs; k++) if (run_offset[k] < least) least = run_offset[k]
  return -least
}

# How many ticks later than they are decoded ffprobe shows all samples, beside their rendering offsets: by the lowest of these,
# where that is below 0, of the fragments too.
function later(    k, most) {
  most = early
  for (k = in_movie + 1; k <= samples; k++) if (-offset[k] > most) most = -offset[k]
  return most
}

function compare_duration(k, has_offsets,    to_next, to_movie_end) {
  if (k > in_movie) same(k, "duration in its fragment", duration[k], boxes_duration[k])
  if (duration[k] == lasts[k]) return
  if (k > in_movie) {
    because("ffprobe takes no durations from fragments, so they were compared with the bytes of the boxes")
    return
  }
  if (has_offsets || in_movie < samples) {
    if (in_movie < samples)
      because("ffprobe takes no durations from a track with fragments, so the times between the movie box's samples were compared")
    else
      because("ffprobe takes no durations from a track with rendering offsets, so the times between the samples were compared")
    to_next = (k < samples ? decoded[k + 1] : stream_ticks - early) - decoded[k]
    same(k, "time to the next", duration[k], to_next)
    return
  }
  to_movie_end = int(movie_milliseconds * timescale / 1000 + 0.5) - decoded[k]
  if (k == samples && kind ~ /^(data|subtitle)$/ && lasts[k] == to_movie_end)
    because("ffprobe lets the last packet of text or data last to the movie's end: " lasts[k] " ticks for " duration[k])
  else
    differs(k, "duration", duration[k], lasts[k])
}

function compare_sync(k) {
  if (sync[k] == key[k]) return
  if (key[k] && k in is_partial) because("ffprobe counts QuickTime's partial sync samples as key frames")
  else if (key[k] && kind ~ /^(data|subtitle)$/) because("ffprobe counts all packets of text and data as key frames")
  else differs(k, "sync", sync[k], key[k])
}

# What a sample is shown later than it is decoded, as ffprobe has to show it.
function shown_later(k) {
  if (!passes_over_offsets) return late + offset[k]
  because("ffprobe takes no rendering offsets from fragments where the movie box has samples and no table of them, so they were " \
    "compared with the bytes of the boxes")
  if (k > in_movie) same(k, "rendering offset in its fragment", offset[k], boxes_offset[k])
  return late
}

function compare_each(    k, has_offsets) {
  for (k = 1; k <= samples; k++) if (offset[k] != 0) has_offsets = 1
  passes_over_offsets = in_movie > 0 && in_movie < samples && has_offsets
  for (k = 1; k <= in_movie; k++) if (offset[k] != 0) passes_over_offsets = 0
  early = earlier()
  late = later()
  if (early > 0) because("ffprobe decodes all of it " early " ticks earlier, by the lowest rendering offset")
  if (late > early) because("ffprobe shows all of it " late " ticks later, by the lowest rendering offset")
  for (k = 1; k <= samples; k++) {
    same(k, "place", place[k], at[k])
    same(k, "bytes", bytes[k], length_of[k])
    same(k, "decoded", start[k] - (k <= in_movie ? early : 0), decoded[k])
    same(k, "shown", start[k] - (k <= in_movie ? early : 0) + shown_later(k), shown[k])
    compare_duration(k, has_offsets)
    compare_sync(k)
  }
}

# Samples of uncompressed sound last a tick each, and ffprobe joins up to 1024 that lie one after the other in a packet.
function are_joined(    k) {
  if (kind != "audio" || samples <= packets) return 0
  for (k = 1; k <= samples; k++) if (duration[k] != 1 || offset[k] != 0 || sync[k] != 1) return 0
  return 1
}

function compare_joined(    k, packet, last, sum) {
  because("ffprobe joins samples of uncompressed sound in packets, " packets " here, and each was compared with its samples")
  k = 1
  for (packet = 1; packet <= packets; packet++) {
    same(k, "place", place[k], at[packet])
    same(k, "decoded", start[k], decoded[packet])
    same(k, "shown", start[k], shown[packet])
    same(k, "sync", 1, key[packet])
    sum = 0
    for (last = k + lasts[packet]; k < last && k <= samples; k++) {
      same(k, "place in the packet", place[k], at[packet] + sum)
      sum += bytes[k]
    }
    same(k - 1, "bytes of the packet", sum, length_of[packet])
  }
  if (k != samples + 1 || k != last) say(sprintf("%d samples, but ffprobe's packets last for %d", samples, last - 1))
}

END {
  count = split(partial, numbers, " ")
  for (k = 1; k <= count; k++) is_partial[numbers[k]] = 1
  read_fragments()
  for (k = 1; k < samples; k++)
    if (start[k] + duration[k] != start[k + 1]) {
      if (fragment[k] != fragment[k + 1])
        because("a fragment begins when it says itself, and not where the samples before it end (ISO/IEC 14496-12, 8.8.12)")
      else
        say(sprintf("sample %d ends at %s, and the next starts at %s", k, start[k] + duration[k], start[k + 1]))
    }
  if (are_joined()) compare_joined()
  else if (samples != packets) say(sprintf("%d samples, but ffprobe has %d packets", samples, packets))
  else compare_each()
  printf "%d sample%s%s%s\n", samples, samples == 1 ? "" : "s", reasons, said
  exit differences > 0
}
