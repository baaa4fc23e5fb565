# fish completion for crashway(8) and its wrappers. What the program's words are is taken from `crashway --help`.

# The forms of the command, or of all.
function __crashway_forms
    crashway --help | sed -n 's/^\(usage:\)\{0,1\} *crashway DIRECTORY BLOCK //p' | string match -r -- "^$argv[1].*"
end

# The candidates for the word under the cursor.
function __crashway_words
    set -l words (commandline -opc)
    set -l word (commandline -ct)
    switch (count $words)
        case 1
            __fish_complete_directories $word
        case 2
            printf '%s\n' 512 1024 2048 4096
        case 3
            __crashway_forms '' | string split -f 1 ' ' | sort -u
        case '*'
            set -l forms (__crashway_forms "$words[4]( |\$)")
            if string match -q -- '-*' $word
                string match -ar -- '-[A-Za-z]\b' $forms | sort -u
                return
            end
            set -l values (string match -v -- '-*' $words[5..])
            set -l names (string replace -ar '\[[^]]*\]| -[A-Za-z]' '' -- $forms[1] | string split -n ' ')
            set -l at (math (count $values) + 2)
            switch "$names[$at]"
                case ARCH
                    printf '%s\n' amd64 arm64 riscv
                case FILE IMAGE KERNEL CORE OUT
                    path filter -f -- $words[2]/* | path basename
            end
    end
end

complete -c crashway -f -a '(__crashway_words)'
complete -c crashway -n 'test (count (commandline -opc)) = 1' -l help -d 'Print the usage'
complete -c crashway -n 'test (count (commandline -opc)) = 1' -l version -d 'Print the version'

complete -c crashway-savecore -s C -d 'Say whether there is a dump'
complete -c crashway-savecore -s c -d 'Clear the dump without saving it'
complete -c crashway-savecore -s f -d 'Take one too that was cleared'
complete -c crashway-savecore -s k -d 'Keep the dump'
complete -c crashway-savecore -s v -d 'Say what is done'
complete -c crashway-savecore -s m -x -d 'Use the numbers below this'
complete -c crashway-savecore -s b -x -a '512 1024 2048 4096' -d 'Bytes of a block'
complete -c crashway-netdumpd -f -s d -r -a '(__fish_complete_directories)' -d 'Where dumps are saved'
complete -c crashway-netdumpd -f -s n -x -d 'End after so many'
complete -c crashway-nm -s N -r -d 'The kernel'
for command in crashway-read crashway-dmesg crashway-gdb
    complete -c $command -s M -r -d 'The saved dump'
    complete -c $command -s N -r -d 'Its kernel'
end
