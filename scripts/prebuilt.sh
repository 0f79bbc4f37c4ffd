# What the launchers and the scripts that make dist/ share: which files are made of which sources, and whether a folder
# holds them as these sources make them. For any POSIX shell, read by `.` in the top folder of the checkout.
#
# Such a folder (dist/, and crates/CRATE/out/built/ for what was built after a change) has a file SOURCES of the lines
#   kit WORDS                  what `rt version` says of the kit that made the files
#   sources CRATE CHECKSUM     the sources that the files of a crate are made of
#   file FILE CHECKSUM         a file, by its name in the folder

say() { echo "kroft: $*" >&2; }

# refuse STATUS WORDS: ends with one line.
refuse() {
  status=$1
  shift
  say "$*"
  exit "$status"
}

# files_of CRATE: the files that are made of a crate, by their names in such a folder.
files_of() {
  case $1 in
    kroft_tool) echo x86_64-linux/kroft ;;
    station_tour) echo x86_64-linux/kroft-station ;;
    kroft_c) echo kroft.h x86_64-linux/libkroft.a x86_64-linux/libkroft.so aarch64-linux/libkroft.a ;;
  esac
}

# crates_below CRATE: the crate and those of the repository that it stands on, by crates.txt.
crates_below() {
  awk -F: -v name="$1" '
    !/^#/ && NF > 1 { split($1, words, " "); uses[words[1]] = $2 }
    END {
      needed[todo[last = 1] = name]
      for (next_one = 1; next_one <= last; next_one++) {
        print todo[next_one]
        count = split(uses[todo[next_one]], used, " ")
        for (k = 1; k <= count; k++)
          if (used[k] in uses && !(used[k] in needed)) { needed[used[k]]; todo[++last] = used[k] }
      }
    }' crates.txt | LC_ALL=C sort
}

# find_sources CRATE WORDS..: finds the sources of a crate and of those below it. (What an editor leaves beside them is none, and
# definitions and proofs change no byte of a program.)
find_sources() {
  crate=$1
  shift
  # (unquoted: names without spaces)
  find $(crates_below "$crate" | sed 's|.*|crates/&/src|') -type f -name '*.rt' "$@" 2>/dev/null || :
}

# making_files CRATE: what else the bytes of a crate's files hang on.
making_files() {
  case $1 in
    kroft_c) echo scripts/make_library packaging/aarch64_heap.c ;;
  esac
}

# sum_of CRATE: the checksum of the sources that the crate's files are made of: their names and what they hold, and
# the lines of crates.txt.
sum_of() {
  {
    crates_below "$1" | while IFS= read -r crate; do grep "^${crate}[ :]" crates.txt || :; done
    { find_sources "$1" -print0; making_files "$1" | tr ' \n' '\0\0'; } | LC_ALL=C sort -z | xargs -0 sha256sum
  } | sha256sum | cut -d ' ' -f 1
}

# recorded FOLDER KIND NAME: what the folder's SOURCES says of a crate's sources, or of a file.
recorded() {
  sed -n "s|^$2 $3 ||p" "$1/SOURCES" 2>/dev/null
}

# is_whole FOLDER FILE: whether the file is as the folder's SOURCES says.
is_whole() {
  [ -f "$1/$2" ] && [ "$(sha256sum <"$1/$2")" = "$(recorded "$1" file "$2")  -" ]
}

# is_made FOLDER CRATE SUM: whether the folder holds all files of the crate, made of sources with this checksum.
is_made() {
  [ "$(recorded "$1" sources "$2")" = "$3" ] || return 1
  for file in $(files_of "$2"); do
    is_whole "$1" "$file" || return 1
  done
}

# built_of CRATE: the folder of what was built of the crate after a change of its sources.
built_of() { echo "crates/$1/out/built"; }

# made_of CRATE SUM: the folder that holds the crate's files, made of sources with this checksum, if there is one.
made_of() {
  for folder in dist "$(built_of "$1")"; do
    if is_made "$folder" "$1" "$2"; then
      echo "$folder"
      return
    fi
  done
  return 1
}

# copy_for_library FOLDER: copies what ./kroft-lib and the bindings read of a checkout whose library is built.
copy_for_library() {
  built=$(made_of kroft_c "$(sum_of kroft_c)") && mkdir -p -- "$1" &&
    tar -cf - kroft-lib crates.txt scripts packaging include bindings crates/*/src "$built" | tar -xf - -C "$1"
}

# write_sources FOLDER CRATE..: prints the SOURCES of a folder that holds what was just made of these crates.
write_sources() {
  folder=$1
  shift
  echo "kit $(rt version)"
  for crate; do echo "sources $crate $(sum_of "$crate")"; done
  for crate; do
    for file in $(files_of "$crate"); do
      echo "file $file $(sha256sum <"$folder/$file" | cut -d ' ' -f 1)"
    done
  done
}

# why_stale CRATE: in which way there is nothing of these sources.
why_stale() {
  if [ -f "$(built_of "$1")/SOURCES" ]; then
    echo "the sources have changed since they were last built"
  elif [ "$(recorded dist sources "$1")" = "$(sum_of "$1")" ]; then
    echo "a file of dist/ isn't as dist/SOURCES says"
  elif [ -f dist/SOURCES ]; then
    echo "the sources have changed since dist/ was made of them"
  else
    echo "nothing is prebuilt in dist/"
  fi
}

# system: this machine's system, as the folders of dist/ are named.
system() { echo "$(uname -m)-$(uname -s)" | tr A-Z a-z; }

# glibc: the version of this machine's C library, if it is glibc.
glibc() { getconf GNU_LIBC_VERSION 2>/dev/null | sed -n 's/^glibc //p'; }

# refuse_elsewhere: ends with one line if the programs can't run here.
refuse_elsewhere() {
  needs="the program is for x86-64 Linux with glibc 2.34 or later"
  for tool in uname getconf; do
    command -v "$tool" >/dev/null 2>&1 || refuse 126 "$needs, and the command '$tool', which tells what this is, isn't on the PATH"
  done
  [ "$(system)" = x86_64-linux ] || refuse 126 "$needs, and this is $(uname -s) on $(uname -m)"
  version=$(glibc)
  [ -n "$version" ] || refuse 126 "$needs, and the C library here isn't glibc"
  major=${version%%.*}
  minor=${version#*.}
  [ "$((1000 * major + ${minor%%.*}))" -ge 2034 ] || refuse 126 "$needs, and this is glibc $version"
}
