# SPDX-License-Identifier: Apache-2.0 OR MIT
# Completions for fish of the words of clockboard(1) and clockboard-state: the lists are those of bash, for which
# tests/test_install.py compares them with what the programs take.
set -l jobs replay race gen soak
complete -c clockboard -f -n "not __fish_seen_subcommand_from $jobs" -a "$jobs --help --version"
complete -c clockboard -f -n "__fish_seen_subcommand_from replay race" -a "--state --help"
complete -c clockboard -f -n "__fish_seen_subcommand_from gen soak" -a --help

function __clockboard_state_job
    set -l job
    for word in (commandline -opc)[2..-1]
        switch "$job:$word"
            case :print :diff :set :what-if :from :to
                set job $word
            case from:qemu from:kvm to:qemu to:kvm
                set job "$job $word"
        end
    end
    echo $job
end
function __clockboard_state_words
    set -l words --accept --format --page-version --pit0-loaded --policy --realtime-ns --up
    switch (__clockboard_state_job)
        case ""
            set words print diff set what-if from to
        case print
            set words --all --json
        case diff
            set words --run --json
        case set
            set words
        case what-if
            set words --khz --gap --policy --ticks --json
        case from to
            set words qemu kvm
        case "from qemu"
            set -a words --count --device --guest-khz --host-khz --keep --keep-time --rtc-clock --rtc-now --user-pit --virtual-ns
        case "from kvm"
            set -a words --onto
        case "to qemu"
            set words --template --accept --device --rtc-now --virtual-ns
        case "to kvm"
            set words --accept --realtime-ns
    end
    printf '%s\n' $words --help --version
end
complete -c clockboard-state -a "(__clockboard_state_words)"
