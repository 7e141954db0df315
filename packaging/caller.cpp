// A caller in C++: how many samples each track of a file has.
#include <mp4.h>

#include <fstream>
#include <iostream>
#include <iterator>
#include <vector>

int main(int count, char **words) {
    std::ifstream file(count > 1 ? words[1] : "", std::ios::binary);
    std::vector<char> bytes((std::istreambuf_iterator<char>(file)), std::istreambuf_iterator<char>());
    mp4_movie movie;
    mp4_answer answer = mp4_open(bytes.data(), bytes.size(), &movie);
    if (mp4_version() != MP4_VERSION || answer.code != MP4_OK) {
        std::cerr << mp4_strerror(answer.code) << '\n';
        return 1;
    }
    std::vector<mp4_track> tracks(movie.track_count);
    mp4_tracks(bytes.data(), bytes.size(), tracks.data(), tracks.size());
    for (const mp4_track &track : tracks) std::cout << track.id << ": " << track.sample_count << " samples\n";
    return 0;
}
