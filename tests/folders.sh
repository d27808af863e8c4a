# Sourced by the tests of rackrun and of the example: `make_folders DIR` makes folders of files, each for one way that a listing can go.
listing=$PWD/crates/rackrun/data

# folder NAME FILE..: a new folder with these files of 01's listing
folder() {
    mkdir "$folders/$1"
    local name
    for name in "${@:2}"; do
        cp "$listing/$name" "$folders/$1/"
    done
}

make_folders() {
    folders=$1
    mkdir "$folders"
    folder nothing
    folder longest
    head -c 65536 /dev/zero >"$folders/longest/model"
    folder longer
    head -c 65537 /dev/zero >"$folders/longer/model"
    folder alone model
    folder weighed model weights
    folder headed model weights
    printf 'run=1\n' >"$folders/headed/trace"
    folder traced model weights trace
    head -c 65536 /dev/zero >>"$folders/traced/trace"
    folder turned model trace
    printf 'inv=1\nouter=1,0\ninner=1,1\n' >"$folders/turned/weights"
    folder below model trace
    printf 'inv=1\nouter=-1,-1\ninner=-1,-1\n' >"$folders/below/weights"
    folder listed model
    sed -i 's/^type=1,1$/type=1,1,1/' "$folders/listed/model"
    folder outweighed model
    printf 'inv=1\nouter=1,1\ninner=1,-1001\n' >"$folders/outweighed/weights"
    folder overdone model weights trace
    sed -i 's/^token=2:0,0$/token=2:0,65536/' "$folders/overdone/trace"
    folder whole model weights trace
    folder scrapped
    printf 'eos=1\nnets=1\nplaces=2\ntype=1,0\nmoves=1\npre=1,0\npost=0,3\ninner=2\nsteps=1\npre=1,1\npost=0,0\nevents=1\nevent=1\nsync=1\nstart=2\ntoken=1:1,1\ntoken=1:1,2\n' >"$folders/scrapped/model"
    printf 'inv=1\nouter=1,1\ninner=1,1\n' >"$folders/scrapped/weights"
    printf 'run=1\n%s%s' \
        $'fire=1\ntake=1\ntoken=1:1,1\ngive=3\ntoken=2:\ntoken=2:\ntoken=2:\n' \
        $'fire=1\ntake=1\ntoken=1:1,2\ngive=3\ntoken=2:\ntoken=2:\ntoken=2:\n' >"$folders/scrapped/trace"
    folder idled model weights trace
    sed -i 's/^eos=1$/eos=2/' "$folders/idled/model"
    folder anywhere model weights
    sed -i 's/^eos=1$/eos=2/; s/^idle=2$/alone=1/' "$folders/anywhere/model"
    printf 'run=1\nfire=2\ntake=1\ntoken=1:1,0\ngive=1\ntoken=1:0,1\n' >"$folders/anywhere/trace"
    folder alike model weights trace
    sed -i 's/^token=1:0,0$/token=1:0,0*200/' "$folders/alike/model"
    folder crowded model
    sed -i 's/^token=1:1,0$/token=1:0,0*65535/' "$folders/crowded/model"
    folder once model
    sed -i 's/^token=1:0,0$/token=1:0,0*1/' "$folders/once/model"
    folder elsewhere weights
    cp "$folders/anywhere/model" "$folders/elsewhere/"
    printf 'run=1\nfire=2\ntake=1\ntoken=1:1,0\ngive=1\ntoken=2:0,1\n' >"$folders/elsewhere/trace"
}
