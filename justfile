check:
    rt all check
fmt:
    for crate in crates/*/; do (cd "$crate" && rt fmt); done
ci:
    .ci/run
build:
    tools/build.sh
install *prefix:
    tools/install.sh {{prefix}}
run *words:
    ./sqlcipher-tool {{words}}
compare *names:
    tests/all.sh {{names}}
bench:
    for script in bench/*.sh; do "$script"; done
