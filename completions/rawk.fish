# The command line of rawk, completed by fish. tools/examples holds the options against `rawk --help`.
complete -c rawk -s F -x -d 'Separate fields by this'
complete -c rawk -s v -x -d 'Assign to a variable before the program begins'
complete -c rawk -s f -r -F -d 'Read the program from this file'
complete -c rawk -l debug -r -F -d 'Debug the program by the commands of this file'
complete -c rawk -l steps -x -d 'End the program after so many steps'
complete -c rawk -l history -x -d 'Keep the last steps of a session, to go back over'
complete -c rawk -s h -l help -d 'Write the options and the commands of a session'
complete -c rawk -s V -l version -d 'Write the version'
