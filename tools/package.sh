#!/usr/bin/env bash
# Makes an archive and a Debian package that run without the toolchain: the proved programs, ./run, the shell, the recorder,
# editors, completions, the manual, docs and examples.
#   tools/package.sh [--program PROGRAM] [--judge JUDGE] [FOLDER]    both go into FOLDER (none: the current one), and are named
# --program, --judge: other programs than the proved ones, for a try. The package is made by dpkg-deb, and left out where there is none.
set -eu
top=$(cd "$(dirname "$(readlink -f "${BASH_SOURCE[0]}")")/.." && pwd)
version=$(cat "$top/VERSION")
declare -A program=()
while :; do
    case "${1-}" in
        --program) program[taskback]=$(readlink -f "${2?--program wants a program}") ;;
        --judge) program[taskcheck]=$(readlink -f "${2?--judge wants a program}") ;;
        *) break ;;
    esac
    shift 2
done
for crate in taskback taskcheck; do
    if [ -z "${program[$crate]-}" ]; then
        program[$crate]=$top/crates/$crate/out/$crate
        if [ ! -x "${program[$crate]}" ] || [ -n "$(find "$top/crates" \( -name out -o -name '*_tests' -o -name '*_rows' \) -prune \
            -o \( -name '*.rt' -o -name '*.antt' \) -newer "${program[$crate]}" -print -quit)" ]; then
            echo "package: no proved program $crate of these sources: ./run --prove makes it" >&2
            exit 2
        fi
    fi
    [ "$("${program[$crate]}" --version)" = "$crate $version" ] || { echo "package: ${program[$crate]} has another version than $version" >&2; exit 2; }
done
into=$(cd "${1-.}" && pwd)
cd "$top"
work=$(mktemp -d)
trap 'rm -rf "$work"' EXIT

# Copies these parts into a folder, and the programs to where they belong there, without tests and what Python caches.
lay() {
    local folder=$1 crate
    shift
    for crate in taskback taskcheck; do
        mkdir -p "$folder/crates/$crate/out"
        cp "${program[$crate]}" "$folder/crates/$crate/out/$crate"
    done
    cp -R "$@" "$folder/"
    find "$folder" \( -name __pycache__ -o -name .mypy_cache -o -name .cache \) -prune -exec rm -rf {} +
    rm -rf "$folder/shell/tests" "$folder/openmp/tests" "$folder/openmp/run_tests"
}

parts=(LICENSE VERSION run taskback-shell taskback-dap shell editors openmp)
name="taskback-$version"
lay "$work/$name" README.md CHANGELOG.md "${parts[@]}" completions docs examples
tar -C "$work" --sort=name --owner=0 --group=0 --numeric-owner -czf "$into/$name.tar.gz" "$name"
echo "$into/$name.tar.gz"

command -v dpkg-deb > /dev/null || exit 0
root=$work/root
share=$root/usr/share
lay "$root/usr/lib/taskback" "${parts[@]}"
mkdir -p "$root/DEBIAN" "$root/usr/bin" "$share/man/man1" "$share/doc/taskback" "$share/bash-completion/completions" \
    "$share/zsh/vendor-completions" "$share/vim/vimfiles"

# What is called by its name: `taskback` is ./run. A script may call taskcheck thousands of times, so that has no shell before it.
for pair in taskback=run taskback-dap=taskback-dap taskback-record=openmp/record taskback-check=openmp/check taskback-merge=openmp/merge \
    taskback-session=openmp/session taskback-cc=openmp/taskback-cc taskback-c++=openmp/taskback-c++; do
    printf '#!/bin/sh\nexec "$(dirname "$(readlink -f "$0")")/../lib/taskback/%s" "$@"\n' "${pair#*=}" > "$root/usr/bin/${pair%%=*}"
    chmod 755 "$root/usr/bin/${pair%%=*}"
done
ln -s ../lib/taskback/crates/taskcheck/out/taskcheck "$root/usr/bin/taskcheck"
for page in taskback taskcheck; do
    sed -e 's|\./run|taskback|g' -e 's|openmp/|taskback\\-|g' "docs/$page.1" | gzip -9n > "$share/man/man1/$page.1.gz"
done
for other in taskback-dap taskback-record taskback-check taskback-merge taskback-session taskback-cc taskback-c++; do
    echo '.so man1/taskback.1' | gzip -9n > "$share/man/man1/$other.1.gz"
done
for command in taskback taskback-dap taskcheck; do
    { cat completions/taskback.bash; echo 'complete -r run; complete -F _taskback_run taskback'; } > "$share/bash-completion/completions/$command"
done
sed -e 's/^#compdef run /#compdef /' -e 's/^    run)$/    run | taskback)/' completions/_taskback > "$share/zsh/vendor-completions/_taskback"
cp -R editors/vim/. "$share/vim/vimfiles/"
cp -R README.md docs examples "$share/doc/taskback/"
gzip -9nc CHANGELOG.md > "$share/doc/taskback/changelog.gz"
cp LICENSE "$share/doc/taskback/copyright"
editors/vscode/build.py "$share/doc/taskback" > /dev/null
find "$root" -type d -exec chmod 755 {} +
cat > "$root/DEBIAN/control" << CONTROL
Package: taskback
Version: $version
Architecture: $(dpkg --print-architecture)
Maintainer: Taskback <taskback@localhost>
Installed-Size: $(du -sk --exclude=DEBIAN "$root" | cut -f1)
Depends: libc6, python3 (>= 3.10)
Recommends: clang-14 | clang, libomp-14-dev | libomp-dev, graphviz
Suggests: elpa-dap-mode, chromium
Section: devel
Priority: optional
Description: reversible debugger for OpenMP task programs
 Takes back any step you choose, with exactly the later steps that need it.
 A shell, pictures, a page for a browser, a server for editors, and a recorder
 of C programs. taskcheck judges recorded runs of any runtime.
CONTROL
# What Python caches with the modules goes with them.
printf '#!/bin/sh\nset -e\nfind /usr/lib/taskback -name __pycache__ -prune -exec rm -rf {} +\n' > "$root/DEBIAN/prerm"
chmod 755 "$root/DEBIAN/prerm"
package="$into/taskback_${version}_$(dpkg --print-architecture).deb"
dpkg-deb --root-owner-group --build "$root" "$package" > /dev/null
echo "$package"
