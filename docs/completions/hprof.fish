# Completions of hprof for fish. ./install puts this file where fish finds it; `source` reads it from anywhere.

# The words before the one at the cursor, without --memory and its size.
function __hprof_words
    set -l last
    for word in (commandline -opc)
        if not string match -q -- '--memory*' $word; and test "$last" != --memory
            echo $word
        end
        set last $word
    end
end

# Whether the word at the cursor is the argument at a place behind one of some commands. The first place is 1.
function __hprof_at
    set -l words (__hprof_words)
    test (count $words) -eq (math $argv[1] + 1); and contains -- $words[2] $argv[2..-1]
end

# The same of the arguments from a place on.
function __hprof_from
    set -l words (__hprof_words)
    test (count $words) -gt $argv[1]; and contains -- $words[2] $argv[2..-1]
end

# By what a command takes before dumps: a new file, nothing, a class or a type, a class or an object. diff takes two dumps.
set -l outs join join101 salvage
set -l heaps check histo classes threads suspects retained ask
set -l kinds biggest objects
set -l nodes show why who keeps text object refs path
set -l pairs diff

complete -c hprof -f
complete -c hprof -s h -l help -d 'Print the help'
complete -c hprof -n __fish_use_subcommand -s V -l version -d 'Print the version'
complete -c hprof -n __fish_use_subcommand -a join -d 'Joins parts of one heap into one canonical dump'
complete -c hprof -n __fish_use_subcommand -a join101 -d 'Joins parts of one heap into one JAVA PROFILE 1.0.1 dump'
complete -c hprof -n __fish_use_subcommand -a salvage -d 'Saves each damaged part up to its fault, and prints the faults'
complete -c hprof -n __fish_use_subcommand -a check -d 'Prints the version and time of each part, and numbers of facts'
complete -c hprof -n __fish_use_subcommand -a histo -d 'Prints the class histogram: the bytes and objects of each class'
complete -c hprof -n __fish_use_subcommand -a classes -d 'Prints each class, its superclass, and its bytes and objects'
complete -c hprof -n __fish_use_subcommand -a threads -d 'Prints each thread, its stack, and the objects that its frames hold'
complete -c hprof -n __fish_use_subcommand -a suspects -d 'Prints where most of the memory is held, and what it falls apart into'
complete -c hprof -n __fish_use_subcommand -a retained -d 'Prints the class histogram by retained size'
complete -c hprof -n __fish_use_subcommand -a biggest -d 'Prints the objects of a class or a type by retained size'
complete -c hprof -n __fish_use_subcommand -a objects -d 'Prints the objects of a class or a type, the largest first'
complete -c hprof -n __fish_use_subcommand -a diff -d 'Prints what grew from one dump to another, in bytes and objects'
complete -c hprof -n __fish_use_subcommand -a show -d 'Prints the contents of a class, an instance or an array, decoded'
complete -c hprof -n __fish_use_subcommand -a why -d 'Prints the shortest path of strong references from a GC root, with names'
complete -c hprof -n __fish_use_subcommand -a who -d 'Prints each reference to a class or an object, and its roots, with names'
complete -c hprof -n __fish_use_subcommand -a keeps -d 'Prints what keeps an object alive, and what it keeps alive itself'
complete -c hprof -n __fish_use_subcommand -a text -d 'Prints the text of a string, or of an array of chars or bytes'
complete -c hprof -n __fish_use_subcommand -a object -d 'Prints the contents of a class, an instance or an array'
complete -c hprof -n __fish_use_subcommand -a refs -d 'Prints each reference to a class or an object'
complete -c hprof -n __fish_use_subcommand -a path -d 'Prints the shortest path from a GC root to a class or an object'
complete -c hprof -n __fish_use_subcommand -a ask -d 'Reads the parts once, and answers questions on standard input'
complete -c hprof -n __fish_use_subcommand -a help -d 'Prints the help of a command'
complete -c hprof -n "__fish_seen_subcommand_from $outs $heaps $kinds $pairs $nodes" -l memory -x -d 'The memory that objects may take, as 512M'
complete -c hprof -n '__hprof_at 1 help' -a "$outs $heaps $kinds $pairs $nodes"
complete -c hprof -n "__hprof_at 1 $outs" -a '(__fish_complete_directories)'
complete -c hprof -n "__hprof_at 1 $kinds" -d Type -a "'boolean[]' 'char[]' 'float[]' 'double[]' 'byte[]' 'short[]' 'int[]' 'long[]'"
complete -c hprof -n "__hprof_at 1 $pairs" -k -a '(__fish_complete_suffix .hprof)'
complete -c hprof -n "__hprof_at 2 $pairs" -k -a '(__fish_complete_suffix .hprof)'
complete -c hprof -n "__hprof_from 1 $heaps" -k -a '(__fish_complete_suffix .hprof)'
complete -c hprof -n "__hprof_from 2 $outs $kinds $nodes" -k -a '(__fish_complete_suffix .hprof)'
