#!/usr/bin/env bash
# Installs by apt what tests want and this machine lacks: Chromium, Graphviz, groff, Emacs with dap-mode, the schema of the debug protocol, Vim, zsh, mypy, flake8, clang, its OpenMP runtime and LLVM's headers.
# It takes ten minutes at most. What can't be installed is named, and the tests that want it are left out.
#   tools/install_for_tests.sh
set -u
end=$((SECONDS + 600))
as_root=()
[ "$(id -u)" = 0 ] || as_root=(sudo -n)

# Runs apt-get for at most what is left of the time, without a question.
apt() {
    local left=$((end - SECONDS))
    [ "$left" -gt 0 ] || return 1
    "${as_root[@]}" env DEBIAN_FRONTEND=noninteractive timeout -k 10 "$left" apt-get -qq -o DPkg::Lock::Timeout=60 \
        -o Acquire::Retries=1 -o Acquire::http::Timeout=30 -o Acquire::https::Timeout=30 "$@" < /dev/null > /dev/null 2>&1
}

has_runtime() {
    (cd openmp && python3 -c 'import sys; from taskrun import building; sys.exit(not building.has_runtime())') > /dev/null 2>&1
}

# The pass of the recorder is compiled with the headers of the clang that it finds.
has_headers() {
    local folder
    folder=$(clang-14 -print-resource-dir 2> /dev/null || clang -print-resource-dir 2> /dev/null) || return 1
    [ -x "$folder/../../../bin/llvm-config" ] && [ -d "$folder/../../../include/llvm" ]
}

# 14 where there is no clang yet, which is then installed too.
clang_version() {
    if command -v clang-14 > /dev/null || ! command -v clang > /dev/null; then
        echo 14
    else
        clang -dumpversion | cut -d. -f1
    fi
}

cd "$(dirname "${BASH_SOURCE[0]}")/.." || exit 2
lacking=()
command -v dot > /dev/null || lacking+=(graphviz)
command -v groff > /dev/null || lacking+=(groff)
command -v emacs > /dev/null || lacking+=(emacs-nox elpa-dap-mode)
[ -d /usr/lib/python3/dist-packages/_pydevd_bundle ] || lacking+=(python3-pydevd)
command -v vim > /dev/null || lacking+=(vim)
command -v zsh > /dev/null || lacking+=(zsh)
command -v mypy > /dev/null || lacking+=(mypy)
command -v flake8 > /dev/null || lacking+=(flake8)
command -v clang-14 > /dev/null || command -v clang > /dev/null || lacking+=(clang-14)
has_runtime || lacking+=(libomp-14-dev)
has_headers || lacking+=("llvm-$(clang_version)-dev")
# The largest comes last, so that no other waits for it.
command -v chromium > /dev/null || command -v chromium-browser > /dev/null || command -v google-chrome > /dev/null || lacking+=(chromium)
[ ${#lacking[@]} != 0 ] || exit 0
command -v apt-get > /dev/null && apt update || echo "apt-get update failed"
for package in "${lacking[@]}"; do
    if apt install -y --no-install-recommends "$package"; then
        echo "installed: $package"
    else
        echo "not installed: $package"
    fi
done
