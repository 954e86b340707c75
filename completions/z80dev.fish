# Completion of z80dev for fish: commands, options, and files by their kind.
# `scripts/install PREFIX` puts it into PREFIX/share/fish/vendor_completions.d; or copy it to ~/.config/fish/completions.

# Whether the command is the one that is given, and, with a number, whether as many operands stand before the cursor.
function __z80dev_at
    set -l words (commandline -opc)
    test "$words[2]" = $argv[1]; or return
    test -n "$argv[2]"; or return 0
    test (count (__z80dev_operands)) -eq $argv[2]
end

# The words before the cursor, after the command, that are neither an option nor its value.
function __z80dev_operands
    set -l is_value no
    set -l words (commandline -opc)
    for word in $words[3..]
        if test $is_value = yes
            set is_value no
        else if contains -- "$words[2] $word" 'run --list' 'debug --list'
            set is_value yes
        else if contains -- $word --out -o --define --with --labels --entry --data --disk --steps --last --trace --profile --input --user --symbols --color --terminal --record --replay
            set is_value yes
        else if not string match -q -- '-*' $word
            echo $word
        end
    end
end

# Whether an option stands before the cursor.
function __z80dev_has
    contains -- $argv[1] (commandline -opc)
end

# Folders, and the files with one of the endings that are given, in upper or lower case.
function __z80dev_files
    set -l token (commandline -ct | string replace -r '^--[a-z]+=' '')
    set -l endings (string join '|' $argv)
    for path in (complete -C "'' $token" | string replace -r '\t.*' '')
        if string match -qr '/$' -- $path; or string match -qri "\.($endings)\$" -- $path
            echo $path
        end
    end
end

# Folders, and the paths of source files without their endings: what a BASE usually is.
function __z80dev_bases
    __z80dev_files asm mac z80 | string replace -ri '\.(asm|mac|z80)$' ''
end

# The files on a disk image whose names `get` takes: those of the user that --user names, or of user 0. A name that begins with a
# dash would be an option.
function __z80dev_names
    set -l letter '(?![a-z<>.,;:=?*[\\]])[!-~]'
    set -l image (string replace -r '^~/' $HOME/ -- $argv[1])
    set -l user (commandline -opc | string join ' ' | string match -r -- '--user[= ]0*([0-9]+)(?: |$)')
    set -q user[2]; or set user '' 0
    # To open a pipe or a device could wait for ever.
    test -f "$image"; or return 1
    z80dev dir "$image" 2>/dev/null </dev/null |
        string replace -rf "^$user[2] (?!-)((?:$letter){1,8}\.(?:$letter){0,3}) [0-9]+( RO)?( SYS)?\$" '$1'
end

# The image that --disk names.
function __z80dev_disk
    commandline -opc | string join ' ' | string match -r -- '--disk[= ]\S+' | string replace -r -- '^--disk[= ]' ''
end

complete -c z80dev -f
complete -c z80dev -n __fish_use_subcommand -s h -l help -d 'Print help'
complete -c z80dev -n __fish_use_subcommand -s V -l version -d 'Print the version'
complete -c z80dev -n __fish_use_subcommand -a asm -d 'Assemble a source file to an object'
complete -c z80dev -n __fish_use_subcommand -a link -d 'Link objects to a program'
complete -c z80dev -n __fish_use_subcommand -a build -d 'Assemble and link source files to a program'
complete -c z80dev -n __fish_use_subcommand -a explain -d 'Explain every error of source files'
complete -c z80dev -n __fish_use_subcommand -a check -d 'Check the certificate of a program'
complete -c z80dev -n __fish_use_subcommand -a dis -d 'Print a source file that builds to a program'
complete -c z80dev -n __fish_use_subcommand -a dir -d 'List the files on a disk image'
complete -c z80dev -n __fish_use_subcommand -a put -d 'Copy files to a disk image'
complete -c z80dev -n __fish_use_subcommand -a get -d 'Copy files from a disk image'
complete -c z80dev -n __fish_use_subcommand -a erase -d 'Erase files on a disk image'
complete -c z80dev -n __fish_use_subcommand -a rename -d 'Rename a file on a disk image'
complete -c z80dev -n __fish_use_subcommand -a protect -d 'Make files on a disk image read-only'
complete -c z80dev -n __fish_use_subcommand -a unprotect -d 'Make files on a disk image writable'
complete -c z80dev -n __fish_use_subcommand -a check-disk -d 'Check the directory of a disk image'
complete -c z80dev -n __fish_use_subcommand -a blank -d 'Make an empty disk image'
complete -c z80dev -n __fish_use_subcommand -a run -d 'Run a CP/M program'
complete -c z80dev -n __fish_use_subcommand -a debug -d 'Debug a CP/M program, forwards and backwards'
complete -c z80dev -n __fish_use_subcommand -a play -d 'Run a CP/M program for somebody at a keyboard'

complete -c z80dev -n '__z80dev_at asm' -s h -l help -d 'Print help'
complete -c z80dev -n '__z80dev_at asm' -s o -l out -x -a '(__z80dev_bases)' -d 'Path of the object, without its ending'
complete -c z80dev -n '__z80dev_at asm' -l grow -d 'Let a JR out of reach become a JP'
complete -c z80dev -n '__z80dev_at asm' -l no-warn -d 'Do not warn of code that relies on the length of a jump'
complete -c z80dev -n '__z80dev_at asm' -l define -x -d 'Define a name as a number'
complete -c z80dev -n '__z80dev_at asm' -l with -r -F -d 'File of definitions and macros'
complete -c z80dev -n '__z80dev_at asm 0' -a '(__z80dev_files asm mac z80)' -d 'Source file'

complete -c z80dev -n '__z80dev_at link' -s h -l help -d 'Print help'
complete -c z80dev -n '__z80dev_at link' -s o -l out -x -a '(__z80dev_bases)' -d 'Path of the files, without an ending'
complete -c z80dev -n '__z80dev_at link' -l map -d 'Write a map of the program too'
complete -c z80dev -n '__z80dev_at link' -l symbols -x -a 'zsid ucsim' -d 'Write symbols for a debugger too'
complete -c z80dev -n '__z80dev_at link' -a '(__z80dev_files zmo)' -d 'Object'

complete -c z80dev -n '__z80dev_at build' -s h -l help -d 'Print help'
complete -c z80dev -n '__z80dev_at build' -s o -l out -x -a '(__z80dev_bases)' -d 'Path of the files, without an ending'
complete -c z80dev -n '__z80dev_at build' -l grow -d 'Let a JR out of reach become a JP'
complete -c z80dev -n '__z80dev_at build' -l list -d 'Write a listing and the labels too'
complete -c z80dev -n '__z80dev_at build' -l map -d 'Write a map of the program too'
complete -c z80dev -n '__z80dev_at build' -l symbols -x -a 'zsid ucsim' -d 'Write symbols for a debugger too'
complete -c z80dev -n '__z80dev_at build' -s v -l verbose -d 'Print how many jumps are short and long'
complete -c z80dev -n '__z80dev_at build' -l no-warn -d 'Do not warn of code that relies on the length of a jump'
complete -c z80dev -n '__z80dev_at build' -l define -x -d 'Define a name as a number'
complete -c z80dev -n '__z80dev_at build' -l with -r -F -d 'File of definitions and macros'
complete -c z80dev -n '__z80dev_at build' -a '(__z80dev_files asm mac z80)' -d 'Source file'

complete -c z80dev -n '__z80dev_at explain' -s h -l help -d 'Print help'
complete -c z80dev -n '__z80dev_at explain' -l grow -d 'Let a JR out of reach become a JP'
complete -c z80dev -n '__z80dev_at explain' -l jumps -d 'Say why each jump that could be short is long'
complete -c z80dev -n '__z80dev_at explain' -l json -d 'Print each message as one line of JSON'
complete -c z80dev -n '__z80dev_at explain' -l color -x -a 'always never auto' -d 'Use colours'
complete -c z80dev -n '__z80dev_at explain' -l define -x -d 'Define a name as a number'
complete -c z80dev -n '__z80dev_at explain' -l with -r -F -d 'File of definitions and macros'
complete -c z80dev -n '__z80dev_at explain' -a '(__z80dev_files asm mac z80)' -d 'Source file'

complete -c z80dev -n '__z80dev_at check' -s h -l help -d 'Print help'
complete -c z80dev -n '__z80dev_at check 0' -a '(__z80dev_files siz)' -d Sizes
complete -c z80dev -n '__z80dev_at check 1' -a '(__z80dev_files crt)' -d Certificate

complete -c z80dev -n '__z80dev_at dis' -s h -l help -d 'Print help'
complete -c z80dev -n '__z80dev_at dis' -l labels -x -a '(__z80dev_files sym)' -d 'File of labels'
complete -c z80dev -n '__z80dev_at dis' -l entry -x -d 'Address at which code begins'
complete -c z80dev -n '__z80dev_at dis' -l data -x -d 'Address at which data begins'
complete -c z80dev -n '__z80dev_at dis 0' -a '(__z80dev_files com)' -d Program

complete -c z80dev -n '__z80dev_at dir' -s h -l help -d 'Print help'
complete -c z80dev -n '__z80dev_at dir' -l user -x -d 'List the files of this user only'
complete -c z80dev -n '__z80dev_at dir' -l long -d 'Print the room that each file takes too'
complete -c z80dev -n '__z80dev_at dir 0' -a '(__z80dev_files img dsk cpm)' -d 'Disk image'
complete -c z80dev -n '__z80dev_at dir 1' -a '(__z80dev_names (__z80dev_operands)[1])' -d 'Name on the disk'

complete -c z80dev -n '__z80dev_at put' -s h -l help -d 'Print help'
complete -c z80dev -n '__z80dev_at put' -l to -d 'Put each file under its own name'
complete -c z80dev -n '__z80dev_at put' -l replace -d 'Replace a file that has the name'
complete -c z80dev -n '__z80dev_at put' -l text -d 'Change the ends of lines to those of CP/M'
complete -c z80dev -n '__z80dev_at put' -l user -x -d 'The user whose files they are'
complete -c z80dev -n '__z80dev_at put' -l no-lock -d 'Do not lock the image'
complete -c z80dev -n '__z80dev_at put 0' -a '(__z80dev_files img dsk cpm)' -d 'Disk image'
complete -c z80dev -n '__z80dev_at put 1' -F
complete -c z80dev -n '__z80dev_at put 2; and not __z80dev_has --to' -a '(string upper -- (path basename -- (__z80dev_operands)[2]))' -d 'Name on the disk'
complete -c z80dev -n '__z80dev_at put; and __z80dev_has --to; and not __z80dev_at put 0' -F

complete -c z80dev -n '__z80dev_at get' -s h -l help -d 'Print help'
complete -c z80dev -n '__z80dev_at get' -l all -d 'Get every file of the user'
complete -c z80dev -n '__z80dev_at get' -l text -d 'Change the ends of lines from those of CP/M'
complete -c z80dev -n '__z80dev_at get' -l user -x -d 'The user whose files they are'
complete -c z80dev -n '__z80dev_at get 0' -a '(__z80dev_files img dsk cpm)' -d 'Disk image'
complete -c z80dev -n '__z80dev_at get 1; and not __z80dev_has --all' -a '(__z80dev_names (__z80dev_operands)[1])' -d 'Name on the disk'
complete -c z80dev -n '__z80dev_at get 1; and __z80dev_has --all' -a '(__fish_complete_directories)' -d Folder
complete -c z80dev -n '__z80dev_at get 2; and not __z80dev_has --all' -F

complete -c z80dev -n '__z80dev_at erase' -s h -l help -d 'Print help'
complete -c z80dev -n '__z80dev_at erase' -l user -x -d 'The user whose files they are'
complete -c z80dev -n '__z80dev_at erase' -l no-lock -d 'Do not lock the image'
complete -c z80dev -n '__z80dev_at erase 0' -a '(__z80dev_files img dsk cpm)' -d 'Disk image'
complete -c z80dev -n '__z80dev_at erase; and not __z80dev_at erase 0' -a '(__z80dev_names (__z80dev_operands)[1])' -d 'Name on the disk'

complete -c z80dev -n '__z80dev_at rename' -s h -l help -d 'Print help'
complete -c z80dev -n '__z80dev_at rename' -l user -x -d 'The user whose file it is'
complete -c z80dev -n '__z80dev_at rename' -l no-lock -d 'Do not lock the image'
complete -c z80dev -n '__z80dev_at rename 0' -a '(__z80dev_files img dsk cpm)' -d 'Disk image'
complete -c z80dev -n '__z80dev_at rename 1' -a '(__z80dev_names (__z80dev_operands)[1])' -d 'Name on the disk'

complete -c z80dev -n '__z80dev_at protect' -s h -l help -d 'Print help'
complete -c z80dev -n '__z80dev_at protect' -l system -d 'Mark the files as system files instead'
complete -c z80dev -n '__z80dev_at protect' -l user -x -d 'The user whose files they are'
complete -c z80dev -n '__z80dev_at protect' -l no-lock -d 'Do not lock the image'
complete -c z80dev -n '__z80dev_at protect 0' -a '(__z80dev_files img dsk cpm)' -d 'Disk image'
complete -c z80dev -n '__z80dev_at protect; and not __z80dev_at protect 0' -a '(__z80dev_names (__z80dev_operands)[1])' -d 'Name on the disk'

complete -c z80dev -n '__z80dev_at unprotect' -s h -l help -d 'Print help'
complete -c z80dev -n '__z80dev_at unprotect' -l system -d 'Take the mark of system files away instead'
complete -c z80dev -n '__z80dev_at unprotect' -l user -x -d 'The user whose files they are'
complete -c z80dev -n '__z80dev_at unprotect' -l no-lock -d 'Do not lock the image'
complete -c z80dev -n '__z80dev_at unprotect 0' -a '(__z80dev_files img dsk cpm)' -d 'Disk image'
complete -c z80dev -n '__z80dev_at unprotect; and not __z80dev_at unprotect 0' -a '(__z80dev_names (__z80dev_operands)[1])' -d 'Name on the disk'

complete -c z80dev -n '__z80dev_at check-disk' -s h -l help -d 'Print help'
complete -c z80dev -n '__z80dev_at check-disk 0' -a '(__z80dev_files img dsk cpm)' -d 'Disk image'

complete -c z80dev -n '__z80dev_at blank' -s h -l help -d 'Print help'
complete -c z80dev -n '__z80dev_at blank' -l mega -d 'Make an image of 1,048,576 bytes'
complete -c z80dev -n '__z80dev_at blank' -l keep -d 'Refuse if the image exists'
complete -c z80dev -n '__z80dev_at blank' -l no-lock -d 'Do not lock the image'
complete -c z80dev -n '__z80dev_at blank 0' -a '(__z80dev_files img dsk cpm)' -d 'Disk image'

complete -c z80dev -n '__z80dev_at run' -s h -l help -d 'Print help'
complete -c z80dev -n '__z80dev_at run' -l disk -x -a '(__z80dev_files img dsk cpm)' -d 'Image of drive A'
complete -c z80dev -n '__z80dev_at run' -l no-lock -d 'Do not lock the image'
complete -c z80dev -n '__z80dev_at run' -l steps -x -d 'The most steps that are run'
complete -c z80dev -n '__z80dev_at run' -l labels -x -a '(__z80dev_files sym)' -d 'File of labels'
complete -c z80dev -n '__z80dev_at run' -l regs -d 'Print the registers and the stack at the end'
complete -c z80dev -n '__z80dev_at run' -l last -x -d 'How many of the last steps to print if the run is stopped, or ends outside the program'
complete -c z80dev -n '__z80dev_at run' -l trace -r -F -d 'File to write with a line for each step'
complete -c z80dev -n '__z80dev_at run' -l profile -r -F -d 'File to write with how often each instruction ran'
complete -c z80dev -n '__z80dev_at run' -l list -x -a '(__z80dev_files lst)' -d 'Listing for the profile'
complete -c z80dev -n '__z80dev_at run 0' -a '(__z80dev_files com)' -d 'Program'
complete -c z80dev -n '__z80dev_at run; and not __z80dev_at run 0' -a '(set -l disk (__z80dev_disk); and __z80dev_names $disk[-1])' -d 'Name on the disk'

complete -c z80dev -n '__z80dev_at debug' -s h -l help -d 'Print help'
complete -c z80dev -n '__z80dev_at debug' -l disk -x -a '(__z80dev_files img dsk cpm)' -d 'Image of drive A, which is not written'
complete -c z80dev -n '__z80dev_at debug' -l input -r -F -d 'File with what is typed before the start'
complete -c z80dev -n '__z80dev_at debug' -l replay -r -F -d 'Record of a session to debug'
complete -c z80dev -n '__z80dev_at debug' -l labels -x -a '(__z80dev_files sym)' -d 'File of labels'
complete -c z80dev -n '__z80dev_at debug' -l list -x -a '(__z80dev_files lst)' -d 'Listing of which where shows lines'
complete -c z80dev -n '__z80dev_at debug 0' -a '(__z80dev_files com)' -d 'Program'
complete -c z80dev -n '__z80dev_at debug; and not __z80dev_at debug 0' -a '(set -l disk (__z80dev_disk); and __z80dev_names $disk[-1])' -d 'Name on the disk'

complete -c z80dev -n '__z80dev_at play' -s h -l help -d 'Print help'
complete -c z80dev -n '__z80dev_at play' -l disk -x -a '(__z80dev_files img dsk cpm)' -d 'Image of drive A'
complete -c z80dev -n '__z80dev_at play' -l no-lock -d 'Do not lock the image'
complete -c z80dev -n '__z80dev_at play' -l steps -x -d 'The most steps that are run'
complete -c z80dev -n '__z80dev_at play' -l raw -d 'Each key comes as it is pressed'
complete -c z80dev -n '__z80dev_at play' -l terminal -x -a 'adm3a vt52 none' -d 'Whose screen codes the program prints'
complete -c z80dev -n '__z80dev_at play' -l record -r -F -d 'File to write with each byte that came'
complete -c z80dev -n '__z80dev_at play' -l replay -r -F -d 'Record of a session to play again'
complete -c z80dev -n '__z80dev_at play 0' -a '(__z80dev_files com)' -d 'Program'
complete -c z80dev -n '__z80dev_at play; and not __z80dev_at play 0' -a '(set -l disk (__z80dev_disk); and __z80dev_names $disk[-1])' -d 'Name on the disk'
