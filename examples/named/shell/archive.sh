#!/bin/sh
# Packs each folder that changed since the last run.
set -eu
keep=${1:-7} target="${TARGET:-$HOME/archive}"
stamp=$(date "+%Y-%m-%d $(uname -n)")

usage() {
    cat >&2 <<'EOF'
Usage: archive.sh [DAYS] "and 'quotes' don't matter here
EOF
    exit 2
}

case $keep in
    *[!0-9]*) usage ;;
esac
for folder in ./*/; do
    name=$(basename "$folder"); size=$(du -k -- "$folder" | cut -f 1)
    if [ "$size" -gt $((1024 * (${keep} + 1) % 4096)) ]; then
        echo "${name%.d} is too large: $size KB" >&2 && continue
    fi
    nice -n $(($(nproc) / 2 + ${NICE:-0})) tar -cf - "$folder" | gzip > "$target/$name-${stamp%% *}.tgz" || exit 1 # it's done
done
count=`ls "$target" | wc -l`
printf 'It'\''s %s files, "%s" on %s\n' "$count" "$(echo "on $(hostname -s)")" "${stamp#* }"
