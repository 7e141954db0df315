# shellcheck shell=bash
# What the scripts of this folder share; each of them sources it.
set -eu
export LC_ALL=C
top=$(dirname "$(dirname "$(readlink -f "$0")")")
script=interop/$(basename "$0")
program=$top/mp4_tool
folder=$(mktemp -d)
trap 'rm -rf "$folder"' EXIT
movies=$folder/movies
mkdir "$movies"

# How many things were compared, how many of them differ, and how many samples there were.
tried=0
failed=0
total=0

# Ends the script with status 2, as nothing could be tried.
nothing_tried() {
  echo "$script: $1, so nothing was tried" >&2
  exit 2
}

# Says loudly that a part wasn't tried, and why.
left_out() {
  echo "LEFT OUT: $1" >&2
}

# Ends the script unless there are ffmpeg, ffprobe and the program. The program is proved and built first, where that
# hasn't been done.
need_tools() {
  local tool
  for tool in ffmpeg ffprobe; do
    command -v "$tool" > /dev/null || nothing_tried "there is no $tool here (apt-get install ffmpeg)"
  done
  "$program" show < /dev/null > /dev/null || nothing_tried "the program doesn't run"
}

# A movie of this name, made by ffmpeg with the other words. One that ffmpeg doesn't make, for want of an encoder or of a
# format, is left out.
movie() {
  local name=$1 said
  shift
  if ! said=$(ffmpeg -v error -nostdin -y "$@" "$movies/$name" 2>&1); then
    rm -f "$movies/$name"
    left_out "$name, which this ffmpeg doesn't make: $(head -n 1 <<< "$said")"
  fi
}

picture=(-f lavfi -i testsrc=duration=2.5:size=160x120:rate=25)
sound=(-f lavfi -i sine=frequency=440:duration=2.5)
big_picture=(-f lavfi -i testsrc=duration=1:size=1920x1080:rate=25)
uneven=(-vf "select=not(mod(n\,3))+lt(n\,10)" -vsync vfr)

# What movies are made of beside pictures and sound: words with times, chapters, and a cover.
make_parts() {
  printf '1\n00:00:00,500 --> 00:00:01,000\nfirst\n\n2\n00:00:01,000 --> 00:00:02,500\nsecond\n' > "$folder/words.srt"
  {
    printf ';FFMETADATA1\n'
    printf '[CHAPTER]\nTIMEBASE=1/1000\nSTART=0\nEND=1000\ntitle=One\n'
    printf '[CHAPTER]\nTIMEBASE=1/1000\nSTART=1000\nEND=2500\ntitle=Two\n'
  } > "$folder/chapters.txt"
  ffmpeg -v error -nostdin -y -f lavfi -i color=red:size=64x64 -frames:v 1 "$folder/cover.png"
}

# Movies without fragments: first those that differ by their boxes, then those that differ by what is coded in them.
make_movies() {
  local words=(-i "$folder/words.srt") chapters=(-i "$folder/chapters.txt" -map_metadata 1 -map 0)
  local long_text coding
  local mpeg4=(-c:v mpeg4) h264=(-c:v libx264) aac=(-c:a aac)
  local both=("${picture[@]}" "${sound[@]}" "${mpeg4[@]}" "${aac[@]}")
  local reordered=("${picture[@]}" "${sound[@]}" "${h264[@]}" "${aac[@]}")
  long_text=$(head -c 60000 /dev/zero | tr '\0' 'x')
  make_parts

  movie plain.mp4 "${both[@]}"
  movie movie_first.mp4 "${both[@]}" -movflags +faststart
  movie movie_in_reserved_room.mp4 "${both[@]}" -moov_size 20000
  movie quicktime.mov "${both[@]}"
  movie sound.m4a "${sound[@]}" "${aac[@]}"
  movie picture.m4v "${picture[@]}" "${h264[@]}"
  movie other_brand.mp4 "${picture[@]}" "${mpeg4[@]}" -brand mp42
  movie phone.3gp "${picture[@]}" "${mpeg4[@]}"
  movie phone.3g2 "${both[@]}"
  movie portable.psp "${both[@]}" -r 30000/1001 -ar 48000 -f psp
  movie flash.f4v "${reordered[@]}"
  movie pictures.avif "${picture[@]}" -frames:v 5 -c:v libaom-av1 -cpu-used 8
  movie fine_timescale.mp4 "${both[@]}" -movie_timescale 90000
  movie fine_track_timescale.mov "${picture[@]}" "${h264[@]}" -r 30000/1001 -video_track_timescale 90000
  movie metadata.mp4 "${picture[@]}" "${mpeg4[@]}" \
    -metadata title=Title -metadata "comment=$long_text" -metadata "description=$long_text"
  movie tagged_places.mov "${picture[@]}" "${sound[@]}" "${mpeg4[@]}" -c:a pcm_s16le \
    -movflags +use_metadata_tags -metadata place=here
  movie cover.m4a "${sound[@]}" -i "$folder/cover.png" -map 0 -map 1 "${aac[@]}" -c:v copy -disposition:v attached_pic
  movie tracks.mp4 "${picture[@]}" "${sound[@]}" "${sound[@]}" "${words[@]}" \
    -map 0 -map 1 -map 2 -map 3 "${mpeg4[@]}" "${aac[@]}" -c:s mov_text
  movie chosen_ids.mp4 "${both[@]}" -streamid 0:7 -streamid 1:3 -use_stream_ids_as_track_ids 1
  for kind in mp4 mov; do
    movie languages."$kind" "${picture[@]}" "${sound[@]}" "${sound[@]}" -map 0 -map 1 -map 2 "${mpeg4[@]}" "${aac[@]}" \
      -metadata:s:a:0 language=eng -metadata:s:a:1 language=deu
    movie words."$kind" "${words[@]}" -c:s mov_text
    movie chapters."$kind" "${sound[@]}" "${chapters[@]}" "${aac[@]}"
  done
  movie timecode.mov "${both[@]}" -timecode 01:00:00:00
  movie streaming_hints.mp4 "${reordered[@]}" -movflags +rtphint
  movie encrypted.mp4 "${reordered[@]}" -encryption_scheme cenc-aes-ctr \
    -encryption_key 00112233445566778899aabbccddeeff -encryption_kid 112233445566778899aabbccddeeff00
  movie reordered.mp4 "${reordered[@]}"
  movie reordered_mpeg4.mp4 "${both[@]}" -bf 2
  movie reordered_without_edits.mp4 "${reordered[@]}" -use_editlist 0
  movie reordered_by_negative_offsets.mp4 "${reordered[@]}" -movflags +negative_cts_offsets
  movie late_sound.mp4 "${picture[@]}" -itsoffset 0.7 "${sound[@]}" "${h264[@]}" "${aac[@]}"
  movie uneven.mp4 "${picture[@]}" "${uneven[@]}" "${mpeg4[@]}"
  movie uneven_reordered.mp4 "${picture[@]}" "${uneven[@]}" "${h264[@]}"
  movie one_picture.mp4 "${picture[@]}" -frames:v 1 "${h264[@]}"

  movie h263.3gp "${picture[@]}" "${sound[@]}" -s 176x144 -c:v h263 "${aac[@]}"
  movie open_groups.mov "${picture[@]}" "${h264[@]}" -x264-params open-gop=1:keyint=10
  for kind in hev1 hvc1; do
    movie hevc_"$kind".mp4 "${picture[@]}" "${sound[@]}" -c:v libx265 -x265-params log-level=none -tag:v "$kind" "${aac[@]}"
  done
  movie vp9_opus.mp4 "${picture[@]}" "${sound[@]}" -c:v libvpx-vp9 -cpu-used 8 -c:a libopus
  movie av1_flac.mp4 "${picture[@]}" "${sound[@]}" -c:v libaom-av1 -cpu-used 8 -usage realtime -c:a flac -strict -2
  movie mpeg2.mp4 "${picture[@]}" -c:v mpeg2video -bf 2
  movie mpeg2.mov "${picture[@]}" -c:v mpeg2video -bf 2
  for coding in prores mjpeg png qtrle jpeg2000; do
    movie "$coding".mov "${picture[@]}" -c:v "$coding"
  done
  movie rawvideo.mov "${picture[@]}" -c:v rawvideo -pix_fmt rgb24
  movie dnxhd.mov "${big_picture[@]}" -c:v dnxhd -b:v 120M -pix_fmt yuv422p
  movie dv.mov "${picture[@]}" -s 720x576 -c:v dvvideo -pix_fmt yuv420p
  for coding in libmp3lame mp2 ac3 eac3 libvorbis libopus flac alac dca; do
    movie "$coding".mp4 "${sound[@]}" -ac 2 -c:a "$coding" -strict -2
  done
  for coding in pcm_s8 pcm_s16le pcm_s16be pcm_s24le pcm_s24be pcm_s32le pcm_f32le pcm_f64be pcm_mulaw pcm_alaw adpcm_ima_qt; do
    movie "$coding".mov "${sound[@]}" -c:a "$coding"
  done
  movie pcm_two_channels_and_picture.mov "${picture[@]}" "${sound[@]}" "${mpeg4[@]}" -c:a pcm_s16be -ac 2
  movie gsm.mov "${sound[@]}" -ar 8000 -c:a libgsm
}

# Movies with fragments, made by ffmpeg: first those that differ by their fragments, then those that differ by what is coded
# in them. A fragment begins at each key frame, of which there is one every ten pictures, unless something else is said.
make_fragmented_movies() {
  local words=(-i "$folder/words.srt") groups=(-g 10) cut=(-movflags +frag_keyframe)
  local mpeg4=(-c:v mpeg4) h264=(-c:v libx264) aac=(-c:a aac)
  local both=("${picture[@]}" "${sound[@]}" "${mpeg4[@]}" "${aac[@]}" "${groups[@]}")
  local reordered=("${picture[@]}" "${sound[@]}" "${h264[@]}" "${aac[@]}" "${groups[@]}")
  local several=("${picture[@]}" "${sound[@]}" "${sound[@]}" "${words[@]}" -map 0 -map 1 -map 2 -map 3 "${h264[@]}" "${aac[@]}"
    -c:s mov_text "${groups[@]}")
  local kind coding
  make_parts

  for kind in mp4 mov; do
    movie fragments."$kind" "${both[@]}" -movflags +frag_keyframe+empty_moov
    movie fragments_reordered."$kind" "${reordered[@]}" -movflags +frag_keyframe+empty_moov
    movie samples_and_fragments."$kind" "${both[@]}" "${cut[@]}"
    movie samples_and_fragments_reordered."$kind" "${reordered[@]}" "${cut[@]}"
    movie fragments_late_movie."$kind" "${reordered[@]}" -movflags +frag_keyframe+empty_moov+delay_moov
    movie fragments_words."$kind" "${several[@]}" -movflags +frag_keyframe+empty_moov
    movie fragments_every_frame."$kind" "${both[@]}" -movflags +frag_every_frame+empty_moov
  done
  movie samples_and_fragments_words.mp4 "${several[@]}" "${cut[@]}"
  movie only_words_in_fragments.mp4 "${words[@]}" -c:s mov_text -movflags +empty_moov -frag_duration 800000
  movie fragments_every_frame_reordered.mp4 "${reordered[@]}" -movflags +frag_every_frame+empty_moov
  movie fragments_every_frame_own_base.mp4 "${reordered[@]}" -movflags +frag_every_frame+empty_moov+default_base_moof
  movie samples_and_fragments_every_frame.mp4 "${both[@]}" -movflags +frag_every_frame
  movie fragments_by_duration.mp4 "${reordered[@]}" -movflags +empty_moov -frag_duration 300000
  movie fragments_by_least_duration.mp4 "${reordered[@]}" -movflags +empty_moov+frag_keyframe -min_frag_duration 700000
  movie fragments_by_size.mp4 "${reordered[@]}" -movflags +empty_moov -frag_size 10000
  movie samples_and_fragments_by_size.mp4 "${reordered[@]}" -frag_size 10000
  movie fragments_interleaved.mp4 "${reordered[@]}" -movflags +frag_keyframe+empty_moov -frag_interleave 3
  movie fragments_own_base.mp4 "${reordered[@]}" -movflags +frag_keyframe+empty_moov+default_base_moof
  movie fragments_own_base_interleaved.mp4 "${reordered[@]}" -movflags +frag_keyframe+empty_moov+default_base_moof -frag_interleave 2
  movie fragments_no_base.mp4 "${reordered[@]}" -movflags +frag_keyframe+empty_moov+omit_tfhd_offset
  movie samples_and_fragments_no_base.mp4 "${reordered[@]}" -movflags +frag_keyframe+omit_tfhd_offset
  movie fragments_apart.mp4 "${several[@]}" -movflags +frag_keyframe+empty_moov+separate_moof
  movie fragments_apart_own_base.mp4 "${reordered[@]}" -movflags +frag_keyframe+empty_moov+separate_moof+default_base_moof
  movie samples_and_fragments_apart.mp4 "${reordered[@]}" -movflags +frag_keyframe+separate_moof
  movie fragments_no_trailer.mp4 "${reordered[@]}" -movflags +frag_keyframe+empty_moov+skip_trailer
  movie fragments_continued.mp4 "${picture[@]}" "${h264[@]}" "${groups[@]}" \
    -movflags +frag_keyframe+empty_moov+delay_moov+frag_discont -fragment_index 7
  left_out "sound with frag_discont, whose first fragment ffmpeg begins at -1024: the standard has no such time (ISO/IEC 14496-12, \
8.8.12), so the bytes say 2^64 - 1024, and the program says of the next sample that its time passes 64 bits"
  movie fragments_color.mp4 "${reordered[@]}" -movflags +frag_keyframe+empty_moov+write_colr
  movie fragments_reference_times.mp4 "${reordered[@]}" -movflags +frag_keyframe+empty_moov -write_prft pts
  movie fragments_negative_offsets.mp4 "${reordered[@]}" -movflags +frag_keyframe+empty_moov+negative_cts_offsets
  movie samples_and_fragments_negative_offsets.mp4 "${reordered[@]}" -movflags +frag_keyframe+negative_cts_offsets
  movie fragments_without_edits.mp4 "${reordered[@]}" -movflags +frag_keyframe+empty_moov -use_editlist 0
  movie fragments_late_sound.mp4 "${picture[@]}" -itsoffset 0.7 "${sound[@]}" "${h264[@]}" "${aac[@]}" "${groups[@]}" \
    -movflags +frag_keyframe+delay_moov
  movie fragments_uneven.mp4 "${picture[@]}" "${uneven[@]}" "${h264[@]}" "${groups[@]}" -movflags +frag_keyframe+empty_moov
  movie fragments_fine_timescale.mp4 "${both[@]}" -movflags +frag_keyframe+empty_moov -movie_timescale 90000
  movie fragments_fine_track_timescale.mov "${reordered[@]}" -r 30000/1001 -video_track_timescale 90000 \
    -movflags +frag_keyframe+empty_moov
  movie fragments_chosen_ids.mp4 "${both[@]}" -streamid 0:7 -streamid 1:3 -use_stream_ids_as_track_ids 1 \
    -movflags +frag_keyframe+empty_moov
  movie fragments_streaming_hints.mp4 "${reordered[@]}" -movflags +frag_keyframe+rtphint
  movie dash.mp4 "${reordered[@]}" -movflags +dash+frag_keyframe
  movie dash_picture.mp4 "${picture[@]}" "${h264[@]}" "${groups[@]}" -movflags +dash+frag_keyframe+delay_moov
  movie dash_by_duration.mp4 "${picture[@]}" "${mpeg4[@]}" -movflags +dash+delay_moov -frag_duration 500000
  movie dash_sound.mp4 "${sound[@]}" "${aac[@]}" -movflags +dash+delay_moov -frag_duration 500000
  movie dash_no_index.mp4 "${picture[@]}" "${h264[@]}" "${groups[@]}" -movflags +dash+frag_keyframe+delay_moov+skip_sidx
  movie dash_index_in_front.mp4 "${picture[@]}" "${h264[@]}" "${groups[@]}" -movflags +dash+frag_keyframe+delay_moov+global_sidx
  movie dash_several_index_in_front.mp4 "${reordered[@]}" -movflags +dash+frag_keyframe+delay_moov+global_sidx
  movie cmaf.mp4 "${picture[@]}" "${h264[@]}" "${groups[@]}" -movflags +cmaf+frag_keyframe
  movie cmaf_sound.mp4 "${sound[@]}" "${aac[@]}" -movflags +cmaf -frag_duration 500000
  movie cmaf_several.mp4 "${reordered[@]}" -movflags +cmaf+frag_keyframe+delay_moov
  movie smooth.ismv "${both[@]}"
  movie smooth_reordered.ismv "${reordered[@]}"
  movie smooth_ahead.ismv "${reordered[@]}" -ism_lookahead 2
  movie smooth_live.ismv "${reordered[@]}" -movflags +isml+frag_keyframe
  movie hybrid.mp4 "${reordered[@]}" -movflags +hybrid_fragmented

  movie fragments_hevc.mp4 "${picture[@]}" "${sound[@]}" -c:v libx265 -x265-params log-level=none "${aac[@]}" "${groups[@]}" \
    -movflags +frag_keyframe+empty_moov
  movie fragments_vp9_opus.mp4 "${picture[@]}" "${sound[@]}" -c:v libvpx-vp9 -cpu-used 8 -c:a libopus "${groups[@]}" \
    -movflags +frag_keyframe+empty_moov+delay_moov
  movie fragments_av1_flac.mp4 "${picture[@]}" "${sound[@]}" -c:v libaom-av1 -cpu-used 8 -usage realtime -c:a flac -strict -2 \
    "${groups[@]}" -movflags +frag_keyframe+empty_moov+delay_moov
  movie fragments_mpeg2.mp4 "${picture[@]}" -c:v mpeg2video -bf 2 "${cut[@]}"
  movie fragments_open_groups.mov "${picture[@]}" "${h264[@]}" -x264-params open-gop=1:keyint=10 "${cut[@]}"
  movie fragments_h263.3gp "${picture[@]}" "${sound[@]}" -s 176x144 -c:v h263 "${aac[@]}" "${groups[@]}" "${cut[@]}"
  for coding in prores mjpeg; do
    movie fragments_"$coding".mov "${picture[@]}" -c:v "$coding" -movflags +empty_moov -frag_duration 500000
  done
  for coding in libmp3lame ac3 eac3 libopus flac alac; do
    movie fragments_"$coding".mp4 "${sound[@]}" -ac 2 -c:a "$coding" -strict -2 -movflags +empty_moov+delay_moov -frag_duration 500000
  done
  for coding in pcm_s16le pcm_s24be adpcm_ima_qt; do
    movie fragments_"$coding".mov "${sound[@]}" -c:a "$coding" -movflags +empty_moov -frag_duration 500000
  done
}

# A movie of this name, made by GStreamer of the other words: parts that lead to the muxer `muxer`, and at the end the muxer and
# its properties. One that GStreamer doesn't make, for want of an element, is left out.
gstreamer_movie() {
  local name=$1 said
  shift
  if ! said=$(gst-launch-1.0 -q "$@" name=muxer ! filesink location="$movies/$name" 2>&1); then
    rm -f "$movies/$name"
    left_out "$name, which this GStreamer doesn't make: $(grep -v '^$' <<< "$said" | head -n 1)"
  fi
}

# The same of one that GStreamer breaks off, as its source fails.
broken_off_movie() {
  local name=$1 said
  shift
  said=$(gst-launch-1.0 -q "$@" name=muxer ! filesink location="$movies/$name" 2>&1) || true
  if ! grep -q 'Failed after iterations as requested' <<< "$said"; then
    rm -f "$movies/$name"
    left_out "$name, which this GStreamer doesn't make: $(grep -v '^$' <<< "$said" | head -n 1)"
  fi
}

# The same of one that is written to a pipe, where GStreamer can't go back to the file's beginning at the end.
streamed_movie() {
  local name=$1 said
  shift
  said=$({ gst-launch-1.0 -q "$@" name=muxer ! fdsink fd=3 3>&1 >&2 | cat > "$movies/$name"; } 2>&1)
  if [ -n "$said" ] || [ ! -s "$movies/$name" ]; then
    rm -f "$movies/$name"
    left_out "$name, which this GStreamer doesn't make: $(grep -v '^$' <<< "$said" | head -n 1)"
  fi
}

# Movies with fragments, made by GStreamer. At the end it writes the movie box of AC-3 anew, 11 bytes longer than at first and
# over the first fragment, so that one is streamed.
make_gstreamer_movies() {
  local shown=(videotestsrc num-buffers=63 ! "video/x-raw,width=160,height=120,framerate=25/1" !)
  local heard=(audiotestsrc num-buffers=110 samplesperbuffer=1024 ! "audio/x-raw,rate=44100,channels=2" !)
  local into=(! muxer.) cut=(fragment-duration=500)
  local coded=(x264enc key-int-max=10 bframes=2 ! h264parse)
  local h264=("${shown[@]}" "${coded[@]}" "${into[@]}") in_order=("${shown[@]}" x264enc key-int-max=10 bframes=0 ! h264parse "${into[@]}")
  local broken=("${shown[@]}" "${coded[@]}" ! identity error-after=45 "${into[@]}")
  local aac=("${heard[@]}" avenc_aac ! aacparse "${into[@]}")
  local words=(filesrc location="$folder/words.srt" ! subparse ! "text/x-raw,format=utf8" "${into[@]}")
  local muxer
  if ! command -v gst-launch-1.0 > /dev/null; then
    left_out "files by GStreamer, as there is no gst-launch-1.0 here (apt-get install gstreamer1.0-tools and its plugins: \
gstreamer1.0-plugins-base, -good, -bad, -ugly and gstreamer1.0-libav)"
    return
  fi
  make_parts

  gstreamer_movie gst_fragments.mp4 "${h264[@]}" mp4mux "${cut[@]}"
  gstreamer_movie gst_streamable.mp4 "${h264[@]}" mp4mux "${cut[@]}" streamable=true
  gstreamer_movie gst_in_order.mp4 "${in_order[@]}" mp4mux "${cut[@]}"
  gstreamer_movie gst_several.mp4 "${h264[@]}" "${aac[@]}" mp4mux "${cut[@]}"
  gstreamer_movie gst_several_streamable.mp4 "${h264[@]}" "${aac[@]}" "${aac[@]}" mp4mux "${cut[@]}" streamable=true
  gstreamer_movie gst_words.mp4 "${h264[@]}" "${aac[@]}" "${words[@]}" mp4mux "${cut[@]}"
  gstreamer_movie gst_smooth.ismv "${h264[@]}" "${aac[@]}" ismlmux "${cut[@]}"
  gstreamer_movie gst_quicktime.mov "${h264[@]}" "${aac[@]}" qtmux "${cut[@]}"
  gstreamer_movie gst_phone.3gp "${h264[@]}" "${aac[@]}" 3gppmux "${cut[@]}"
  gstreamer_movie gst_timescales.mp4 "${h264[@]}" "${aac[@]}" mp4mux "${cut[@]}" trak-timescale=90000 movie-timescale=600
  gstreamer_movie gst_without_offsets.mp4 "${h264[@]}" mp4mux "${cut[@]}" presentation-time=false
  gstreamer_movie gst_one_fragment.mp4 "${h264[@]}" "${aac[@]}" mp4mux fragment-duration=60000
  gstreamer_movie gst_short_fragments.mp4 "${h264[@]}" "${aac[@]}" mp4mux fragment-duration=1
  gstreamer_movie gst_finalised.mp4 "${h264[@]}" "${aac[@]}" mp4mux "${cut[@]}" fragment-mode=first-moov-then-finalise
  gstreamer_movie gst_finalised_streamable.mov "${h264[@]}" qtmux "${cut[@]}" fragment-mode=first-moov-then-finalise streamable=true
  broken_off_movie gst_broken_off.mp4 "${broken[@]}" mp4mux "${cut[@]}"
  broken_off_movie gst_broken_off_before_it_was_finalised.mp4 "${broken[@]}" mp4mux "${cut[@]}" fragment-mode=first-moov-then-finalise
  broken_off_movie gst_broken_off_several.mov "${broken[@]}" "${aac[@]}" qtmux "${cut[@]}" fragment-mode=first-moov-then-finalise
  streamed_movie gst_streamed.mp4 "${h264[@]}" "${aac[@]}" mp4mux "${cut[@]}"
  gstreamer_movie gst_hevc.mp4 "${shown[@]}" x265enc key-int-max=10 ! h265parse "${into[@]}" mp4mux "${cut[@]}"
  gstreamer_movie gst_vp9.mp4 "${shown[@]}" vp9enc deadline=1 keyframe-max-dist=10 ! vp9parse "${into[@]}" mp4mux "${cut[@]}"
  gstreamer_movie gst_av1.mp4 "${shown[@]}" av1enc cpu-used=8 keyframe-max-dist=10 ! av1parse "${into[@]}" mp4mux "${cut[@]}"
  gstreamer_movie gst_mp3.mp4 "${heard[@]}" lamemp3enc ! mpegaudioparse "${into[@]}" mp4mux "${cut[@]}"
  streamed_movie gst_ac3.mp4 "${heard[@]}" avenc_ac3 ! ac3parse "${into[@]}" mp4mux "${cut[@]}"
  gstreamer_movie gst_alac.mp4 "${heard[@]}" avenc_alac "${into[@]}" mp4mux "${cut[@]}"
  gstreamer_movie gst_opus.mp4 "${heard[@]}" audioresample ! "audio/x-raw,rate=48000" ! opusenc ! opusparse "${into[@]}" \
    mp4mux "${cut[@]}"
  gstreamer_movie gst_mjpeg.mov "${shown[@]}" jpegenc "${into[@]}" qtmux "${cut[@]}"
  gstreamer_movie gst_pcm.mov "${heard[@]}" audioconvert ! "audio/x-raw,format=S16LE" "${into[@]}" qtmux "${cut[@]}"
  for muxer in isofmp4mux cmafmux dashmp4mux; do
    gstreamer_movie gst_"$muxer".mp4 "${h264[@]}" "$muxer"
  done
}

# Whether two texts are the same; prints both where they aren't.
same() {
  [ "$2" = "$3" ] || { printf '  %s: [%s], but ffprobe has [%s]\n' "$1" "$2" "$3"; false; }
}

# The rest of the line that begins with a word, in what `info` printed.
line() {
  sed -n "s/^$1 //p" <<< "$described"
}

# The movie's own lists of samples: neither edit lists nor chapters change what ffprobe prints of them. What a decoder says of
# encrypted pictures isn't shown.
probe() {
  ffprobe -v fatal -ignore_editlist 1 -ignore_chapters 1 "$@"
}

# All packets of a movie, a line each: STREAM PTS DTS DURATION SIZE PLACE FLAGS.
probe_packets() {
  probe -show_entries packet=stream_index,pts,dts,duration,size,pos,flags -of compact=print_section=0:nokey=1 "$1" | tr '|' ' '
}

# All streams of a movie, a line each of fields NAME=VALUE between bars.
probe_streams() {
  probe -show_entries "stream=index,id,codec_type,codec_tag_string,time_base,duration_ts,nb_frames:stream_tags=language:\
stream_disposition=attached_pic" -of compact=print_section=0 "$1"
}

# A field of the line of a stream.
stream_field() {
  tr '|' '\n' <<< "$2" | sed -n "s/^$1=//p"
}

# The numbers of a movie's partial sync samples: of QuickTime's table `stps`.
partial_sync_samples() {
  local place count
  for place in $(grep -abo stps "$1" | cut -d: -f1); do
    count=$(od -An -v -t u4 --endian=big -j $((place + 8)) -N 4 "$1" | tr -d ' ')
    od -An -v -t u4 --endian=big -j $((place + 12)) -N $((4 * count)) "$1"
  done | xargs
}

# What the bytes of the file say of a track's fragments (read_fragments.awk has the lines). Nothing of a file without any.
read_fragments() {
  [ "$(line fragmented)" = no ] || od -An -v -t u1 -w1 "$file" | awk -v id="$1" -f "$top/interop/read_fragments.awk"
}

# Compares a file of samples with the packets of a stream, which are in a file with all packets of the movie. Prints what
# compare_packets.awk does; the status is 1 where they differ.
compare_packets() {
  local movie=$1 stream=$2 samples=$3 packets=$4
  sed -n "s/^$(stream_field index "$stream") //p" "$packets" > "$folder/stream_packets"
  awk -v kind="$(stream_field codec_type "$stream")" -v stream_ticks="$(stream_field duration_ts "$stream")" \
    -v timescale="$(stream_field time_base "$stream" | cut -d/ -f2)" -v movie_milliseconds="$(line duration)" \
    -v partial="$(partial_sync_samples "$movie")" -v fragments="$folder/fragments" \
    -f "$top/interop/compare_packets.awk" "$samples" "$folder/stream_packets"
}

# Adds a reason for which ffprobe says something else of a track than its boxes.
because() {
  reasons="$reasons; $1"
}

# What kind of track it is. The program knows pictures, sound and timed text.
compare_type() {
  case "$1 $2" in
    "vide video" | "soun audio" | "sbtl subtitle" | "- data") ;;
    "- subtitle") because "QuickTime's text is of no kind that the program knows" ;;
    "- video") [ "${name##*.}" = avif ] && because "an image file's pictures are of no kind that the program knows" ;;
    *) false ;;
  esac || { echo "  type: [$1], but ffprobe has [$2]"; return 1; }
}

# What its samples are coded as. The program knows five codings by name.
compare_media() {
  case "$1 $2" in
    "avc1 avc1" | "hev1 hev1" | "vp09 vp09" | "mp4a mp4a" | "tx3g tx3g") ;;
    "- avc1" | "- mp4a") grep -aq 'encv\|enca' "$file" && because "ffprobe shows what is encrypted, $2, and not that it is" ;;
    "- hev1" | "- vp09" | "- tx3g") false ;;
    "- "*) ;;
    *) false ;;
  esac || { echo "  media: [$1], but ffprobe has [$2]"; return 1; }
}

# Its language. The program takes the number of a language of QuickTime for letters, of which 0 has none and 32767 none
# that prints.
compare_language() {
  case "$1 $2" in
    '``` eng') because "its language is QuickTime's number 0, English, where the program sees no letters" ;;
    '... ') because "its language is QuickTime's number 32767, none" ;;
    *) same language "$1" "$2" ;;
  esac
}

# Ticks in microseconds, rounded down: a division digit by digit, as the product may pass 64 bits.
microseconds_of() {
  local digits=${1}000000 timescale=$2 place rest=0 quotient=""
  for ((place = 0; place < ${#digits}; place++)); do
    rest=$((rest * 10 + ${digits:place:1}))
    quotient=$quotient$((rest / timescale))
    rest=$((rest % timescale))
  done
  quotient=${quotient#"${quotient%%[!0]*}"}
  echo "${quotient:-0}"
}

# The timescales and the durations, in ticks, that the track headers of the file say, a line each.
track_headers() {
  local place timescale
  for place in $(grep -abo mdhd "$file" | cut -d: -f1); do
    if [ "$(od -An -v -t u1 -j $((place + 4)) -N 1 "$file" | xargs)" = 0 ]; then
      od -An -v -t u4 --endian=big -j $((place + 16)) -N 8 "$file"
    else
      timescale=$(od -An -v -t u4 --endian=big -j $((place + 24)) -N 4 "$file")
      echo "$timescale" "$(od -An -v -t u8 --endian=big -j $((place + 28)) -N 8 "$file")"
    fi
  done | awk '{ print $1, $2 }'
}

# The duration in ticks that a track header with this timescale says, where it is so many microseconds.
header_ticks() {
  local timescale ticks
  while read -r timescale ticks; do
    if [ "$timescale" = "$1" ] && [ "$(microseconds_of "$ticks" "$timescale")" = "$2" ]; then
      echo "$ticks"
      return
    fi
  done < <(track_headers)
  return 1
}

# Whether the header of a track says nothing of how long its fragments last, or nothing at all: its duration is that of the
# movie box's samples, 0 where there are none, or all ones where it isn't known (ISO/IEC 14496-12, 8.4.2.3 and 8.8.1).
header_leaves_out_fragments() {
  local added in_movie
  added=$(grep -c '^sample' "$folder/fragments")
  in_movie=$(head -n "-$added" "$folder/samples" | awk '{ last = $4 + $5 } END { print last + 0 }')
  case $header in
    0) because "its header says that it lasts 0 ticks, without its fragments, with which ffprobe counts" ;;
    4294967295 | 18446744073709551615) because "its header says, by all ones, that its duration isn't known" ;;
    "$in_movie") because "its header says how long the movie box's samples last, without its fragments" ;;
    *)
      [ "$header" -gt "$in_movie" ] && [ "$header" -lt "$lasts" ] || return 1
      because "its header says that it lasts $header ticks, where the movie box's samples last $in_movie, and $lasts with those of \
its fragments"
      ;;
  esac
}

# How long ffprobe says that the movie lasts, in ticks of the track.
longest_stream() {
  probe -show_entries format=duration -of default=noprint_wrappers=1:nokey=1 "$file" \
    | awk -v timescale="$timescale" '{ printf "%.0f", $1 * timescale }'
}

# The same where ffprobe counts with the fragments.
compare_fragmented_duration() {
  if [ "$ticks" = "$lasts" ]; then
    header_leaves_out_fragments
  elif [[ $kind =~ ^(data|subtitle)$ ]] && [ "$ticks" = "$(longest_stream)" ]; then
    header_leaves_out_fragments && because "ffprobe lets a stream of text or data last as long as the movie with its fragments"
  elif grep -qx "index $ticks" "$folder/fragments"; then
    header_leaves_out_fragments && because "ffprobe lets it last as long as an index of its segments says"
  else
    false
  fi
}

# Its duration, which the program has from the header of the track.
compare_duration() {
  local microseconds=$1 timescale=$2 ticks=$3 header lasts
  lasts=$(awk '{ last = $4 + $5 } END { print last + 0 }' "$folder/samples")
  if ! header=$(header_ticks "$timescale" "$microseconds"); then
    echo "  duration: [$microseconds us], which no track header says"
    return 1
  elif [ "$ticks" = "$header" ]; then
    return
  elif [ "$(line fragmented)" = yes ] && compare_fragmented_duration; then
    return
  elif [ "$ticks" -eq "$lasts" ] && [ "$ticks" -lt "$header" ]; then
    because "its header says that it lasts $header ticks, but its samples, which ffprobe goes by, last $ticks"
  elif [[ $kind =~ ^(data|subtitle)$ ]] && [ "$ticks" -eq $((($(line duration) * timescale + 500) / 1000)) ]; then
    because "ffprobe lets a stream of text or data last as long as the movie"
  else
    same duration "$header ticks" "$ticks ticks"
  fi
}

# Compares a track, whose line of info has the other words, and prints a line that says so.
compare_track() {
  local id=$1 type=$2 media=$3 timescale=$4 duration=$5 count=$6 language=$7
  local stream kind tag answer summary verdict=agrees reasons=""
  if ! stream=$(grep -E "(^|\|)id=$(printf '0x%x' "$id")(\||$)" "$folder/streams"); then
    echo "$name, track $id: DIFFERS, ffprobe has no such stream"
    return 1
  fi
  kind=$(stream_field codec_type "$stream")
  tag=$(stream_field codec_tag_string "$stream")
  "$program" samples "$file" "$id" > "$folder/samples" || verdict=DIFFERS
  read_fragments "$id" > "$folder/fragments"
  compare_type "$type" "$kind" || verdict=DIFFERS
  compare_media "$media" "$tag" || verdict=DIFFERS
  same timescale "1/$timescale" "$(stream_field time_base "$stream")" || verdict=DIFFERS
  compare_duration "$duration" "$timescale" "$(stream_field duration_ts "$stream")" || verdict=DIFFERS
  same count "$count" "$(wc -l < "$folder/samples")" || verdict=DIFFERS
  [ "$(line fragmented)" = yes ] || same count "$count" "$(stream_field nb_frames "$stream")" || verdict=DIFFERS
  compare_language "$language" "$(stream_field tag:language "$stream")" || verdict=DIFFERS
  answer=$(compare_packets "$file" "$stream" "$folder/samples" "$folder/packets") || verdict=DIFFERS
  total=$((total + count))
  summary=${answer%%$'\n'*}
  printf '%s, track %s, %s: %s, %s%s%s\n' "$name" "$id" "$tag" "$verdict" "$summary" "$reasons" "${answer#"$summary"}"
  [ $verdict = agrees ]
}

# Says of each stream of ffprobe that is no track why that is.
compare_other_streams() {
  local stream ids
  ids=$(sed -n 's/^track \([0-9]*\) .*/\1/p' <<< "$described")
  while read -r stream; do
    if grep -qx "$(($(stream_field id "$stream")))" <<< "$ids"; then
      continue
    elif [ "$(stream_field disposition:attached_pic "$stream")" = 1 ]; then
      echo "$name: ffprobe shows the cover as a stream; it lies in the metadata and is no track"
    else
      echo "$name: DIFFERS, ffprobe has another stream, $stream"
      return 1
    fi
  done < "$folder/streams"
}

# Compares the tracks of a file with ffprobe's streams, and each track.
compare_file() {
  local track
  if ! described=$("$program" info "$file"); then
    tried=$((tried + 1))
    failed=$((failed + 1))
    echo "$name: DIFFERS, refused"
    return
  fi
  probe_streams "$file" > "$folder/streams"
  probe_packets "$file" > "$folder/packets"
  compare_other_streams || { tried=$((tried + 1)); failed=$((failed + 1)); }
  while read -r _ track; do
    tried=$((tried + 1))
    # shellcheck disable=SC2086 # the words of the line are the words of the call
    compare_track $track || failed=$((failed + 1))
  done < <(grep '^track ' <<< "$described")
}

# Compares the tracks of all files, and says how many of them agree.
compare_files() {
  local files=0
  for file in "$movies"/*; do
    name=${file##*/}
    files=$((files + 1))
    compare_file
  done
  finish "tracks agree, of $files files, with $total samples"
}

# Says how many of the things agree; the status is 1 where one doesn't.
finish() {
  [ "$tried" -gt 0 ] || nothing_tried "there is nothing to compare"
  echo "$((tried - failed)) of $tried $1"
  [ "$failed" -eq 0 ]
}
