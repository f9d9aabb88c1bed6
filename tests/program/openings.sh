#!/usr/bin/env bash
# A named file is recorded into by way of record_actions alone: lock_file makes a LockedFile, which no other code can
# make, and open_recorder alone gets a recorder from one. What types don't say is that no other code calls
# FileDisk::lock or Recorder::open itself: the places that do are few, and a place more is printed.
. "$(dirname "$0")/../helpers/counting.bash"

# places FOLDER CALL: the files below this folder of crates whose code has this call, but those of tests and of
# disk_model, which has the functions
places() {
    (cd "$1" && grep -rnF --include='*.rt' --exclude-dir=out "$2(" . |
        grep -vE '^[^:]+:[0-9]+: *//' | cut -d: -f1 | sed 's|^\./||' | grep -vE '^(test_|disk_model/)' | sort -u)
}

# The count itself finds a call if there is one, and no comment.
mkdir -p "$work/low/src" "$work/test_low/src"
echo '    let disk = FileDisk::lock(rt, file)?;' | tee "$work/low/src/locking.rt" >"$work/test_low/src/locking.rt"
echo '    /// `FileDisk::lock(rt, file)` is called by locking.rt.' >"$work/low/src/telling.rt"
places "$work" FileDisk::lock >"$work/found"
check "a call is found, and no comment" is_text "$work/found" 'low/src/locking.rt\n'

# A file is locked by lock_file, and by what keeps a copy of a tail beside it.
places "$top/crates" FileDisk::lock >"$work/found"
check "where files are locked" is_text "$work/found" 'record_actions/src/beside.rt\nrecord_actions/src/locking.rt\n'

# The other files are opened to be read alone.
places "$top/crates" FileDisk::open >"$work/found"
check "where files are opened" is_text "$work/found" \
    'archive_reading/src/files.rt\nfile_actions/src/files.rt\npacket_actions/src/packing.rt\n'
grep -rhF --include='*.rt' -e 'FileDisk::open(' "$top"/crates/{archive_reading,file_actions,packet_actions}/src |
    grep -vF 'FileMode::ReadOnly' >"$work/found"
check "they are opened to be read alone" is_text "$work/found" ''

# A recorder is opened on the disk of a file that was locked, by open_recorder (record_actions), on that of a folder's
# file that can be gone on with (open_sound of archive_record), again after a fault (serve_hub), and by the laws.
wanted='archive_laws/src/stepping.rt\narchive_record/src/opening.rt\nrecord_actions/src/recorders.rt\n'
places "$top/crates" Recorder::open >"$work/found"
check "where recorders are opened" is_text "$work/found" "${wanted}serve_hub/src/opening.rt\n"

finish
