# Read by bin/package: the folder $tree, as it is installed, part by part. usr/ in it is what the archive has too.

# pages that serve engineers stay out
left='BENCHMARKS DECISIONS MAP PORT PROMISES READING'

# put_programs: the programs, where the scripts look for them, static and without symbols. For x86-64 the toolchain's own C functions go with them, for
# another processor package/os.c.
put_programs() {
    home=$tree/usr/lib/tirunqesh
    mkdir -p "$home/target/bin"
    functions="$kit/c/libos_c.a $kit/c/liblibc_c.a"
    [ "$architecture" = amd64 ] || functions=package/os.c
    for program in $programs; do
        code_for "$architecture" "$program" "target/obj/$program.o"
        # shellcheck disable=SC2086 # words, an argument each
        $cc -O2 -static-pie -s -Wl,--gc-sections -Wl,--build-id=none -o "$home/target/bin/$program" "$code" $functions || fail "$program: not linked"
    done
}

# put_scripts: the scripts that users call, by their installed names, and what they read. What only serves engineers, in a clone, stays out.
put_scripts() {
    commands=''
    for script in bin/*; do
        case ${script#bin/} in
        day | edges | package | rack | run | second) ;;
        *) commands="$commands ${script#bin/}" ;;
        esac
    done
    mkdir -p "$home/bin" "$home/lib" "$tree/usr/bin" "$tree/usr/share/man/man1"
    cp lib/help.sh lib/prove.sh lib/files.sh lib/bars.awk "$home/lib/"
    for name in $commands; do
        as_installed script "$name" <"bin/$name" >"$home/bin/$name"
        chmod 755 "$home/bin/$name"
        ln -s "../lib/tirunqesh/bin/$name" "$tree/usr/bin/tirunqesh-$name"
        as_installed manual "$name" <"bin/$name" | gzip -9n >"$tree/usr/share/man/man1/tirunqesh-$name.1.gz"
    done
    cp VERSION "$home/VERSION"
    echo "$commit" >"$home/COMMIT"
}

# as_installed FORM NAME: standard input as package/head.awk has it.
as_installed() {
    LC_ALL=C awk -v form="$1" -v name="$2" -v commands="$commands" -v left="$left" -v version="$version" -v date="$date" \
        -f package/troff.awk -f package/head.awk
}

# put_rack: the functions for C, their header, their pages.
put_rack() {
    code_for "$architecture" rack_c target/staticlib/librack.a
    cp "$code" "$home/librack.a"
    mkdir -p "$tree/usr/include/tirunqesh" "$tree/usr/lib/$triplet/pkgconfig" "$room/man3" "$tree/usr/share/man/man3"
    cp rack/rack.h "$tree/usr/include/tirunqesh/"
    sed "s/VERSION/$version/" package/tirunqesh-rack.pc >"$tree/usr/lib/$triplet/pkgconfig/tirunqesh-rack.pc"
    LC_ALL=C awk -v folder="$room/man3" -v page=tirunqesh-rack -v version="$version" -v date="$date" -f package/troff.awk -f package/header.awk rack/rack.h
    for page in "$room"/man3/*; do gzip -9n <"$page" >"$tree/usr/share/man/man3/${page##*/}.gz"; done
}

# put_pages: users' pages, samples, the viewer's dissector, examples of units.
put_pages() {
    documents=$tree/usr/share/doc/tirunqesh
    mkdir -p "$documents/examples" "$tree/usr/share/tirunqesh"
    for page in docs/*.md; do
        name=${page#docs/}
        case " $left " in *" ${name%.md} "*) ;; *) as_installed page '' <"$page" >"$documents/$name" ;; esac
    done
    cp docs/*.svg "$documents/"
    as_installed page '' <CHANGELOG.md >"$documents/CHANGELOG.md"
    cp -R samples viewer "$tree/usr/share/tirunqesh/"
    cp package/*.service package/*.socket rack/list.c "$documents/examples/"
}

# put_proof: what was proved, with what, of what, and what was assumed. It says what was seen here, and nothing else.
put_proof() {
    gate="not handed in; \`bash .ci/run\` runs it"
    [ ! -f target/gate ] || [ "$(sed -n 1p target/gate)" != "$commit, $(rt version)" ] || gate=$(sed -n 2p target/gate)
    {
        echo "Tirunqesh $version for $architecture, of $date, by $maintainer"
        echo "commit: $commit"
        echo "toolchain: $(rt version)"
        echo "linked by: $($cc --version | sed -n 1p), $($cc -Wl,--version 2>/dev/null | sed -n 1p)"
        echo "C library: libc.a, SHA-256 $(sha256sum <"$($cc -print-file-name=libc.a)" | cut -d ' ' -f 1)"
        echo "gate's last line: $gate"
        awk '/^## / { on = /^## What is proved/; next } on' README.md | as_installed page ''
        [ "$architecture" = amd64 ] || echo "
For $architecture: the toolchain made the programs, and proved each once more for this processor, over the libraries that were proved here; with them goes
package/os.c in place of the toolchain's own C functions. Nothing proves compiler, C library and os.c."
        echo
        echo "What the toolchain said of each program when it was proved here; of the functions of C whose contracts were assumed it names three a library at"
        echo "most, and how many there are:"
        for program in $programs rack_c; do
            case $architecture,$program in
            amd64,*) told=target/log/$program.say ;;
            *,rack_c) told=target/package/$architecture/librack.a.say ;;
            *) told=target/package/$architecture/$program.o.say ;;
            esac
            sed -n "s/^\(axioms .*\|logic=.* target=.*\)$/    $program: \1/p" "$told"
        done
        echo
        echo "What was packed (SHA-256):"
        (cd "$tree" && find usr -type f ! -path '*/PROOF.txt' | LC_ALL=C sort | xargs sha256sum) | sed 's/^/    /'
        echo
        echo "The sources (SHA-256):"
        git ls-files -z | LC_ALL=C sort -z | xargs -0 sha256sum | sed 's/^/    /'
    } >"$documents/PROOF.txt"
}

# print_changes: those of this version, as Debian's changelogs have them.
print_changes() {
    awk -v this="## $version" '
        /^## / { on = $0 == this }
        !on || !NF || /^## / { next }
        /^- / { if (line != "") print line; line = "  *"; $1 = ""; $0 = $0 }
        { for (i = 1; i <= NF; i++) if (length(line " " $i) > 78) { print line; line = "    " $i } else line = line " " $i }
        END { print line }' CHANGELOG.md
}

# put_control: what only a Debian package has.
put_control() {
    mkdir -p "$tree/DEBIAN" "$tree/usr/share/lintian/overrides"
    cp package/copyright "$documents/copyright"
    cp package/lintian "$tree/usr/share/lintian/overrides/tirunqesh"
    {
        echo "tirunqesh ($version) unstable; urgency=medium"
        echo
        print_changes
        echo
        echo " -- $maintainer  $(LC_ALL=C date -u -d "@$SOURCE_DATE_EPOCH" '+%a, %d %b %Y %H:%M:%S +0000')"
    } | gzip -9n >"$documents/changelog.gz"
    size=$(find "$tree/usr" -type f -exec cat {} + | wc -c)
    name=$(printf '%s\n' "$maintainer" | sed 's/[\\/&]/\\&/g') # a name may have signs that are sed's own
    sed "s/VERSION/$version/; s/ARCHITECTURE/$architecture/; s/MAINTAINER/$name/; s/SIZE/$((size / 1024 + 1))/" package/control >"$tree/DEBIAN/control"
    (cd "$tree" && find usr -type f | LC_ALL=C sort | xargs md5sum) >"$tree/DEBIAN/md5sums"
}

# pack: both files, put in place whole. Times are the commit's, owners are root.
pack() {
    package=tirunqesh_${version}_$architecture
    chmod -R u=rwX,go=rX "$tree" # a clone may have been made with another umask
    find "$tree" -exec touch -h -d "@$SOURCE_DATE_EPOCH" {} +
    mkdir -p target/package
    DPKG_DEB_THREADS_MAX=1 dpkg-deb --root-owner-group -Zxz --build "$tree" "$room/$package.deb" >"$room/said" || fail "no package"
    mv "$tree/usr" "$room/tirunqesh-$version"
    tar -C "$room" --sort=name --owner=0 --group=0 --numeric-owner --mtime="@$SOURCE_DATE_EPOCH" --format=gnu -cf "$room/archive" "tirunqesh-$version" ||
        fail "no archive"
    gzip -9n <"$room/archive" >"$room/$package.tar.gz"
    for file in "$package.deb" "$package.tar.gz"; do
        mv "$room/$file" "target/package/$file"
        echo "target/package/$file"
    done
}
