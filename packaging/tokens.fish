# The options are those that `tokens --help` names.
for it in (tokens --help | string match -r '^  (?:-., )?--[a-z]+ .*')
    set -l name (string match -r -- '--[a-z]+' $it | string sub -s 3)
    set -l more
    switch $name
        case emit
            set more -x -a 'c rust'
        case color
            set more -x -a 'auto always never'
        case prefix
            set more -x
    end
    complete -c tokens -l $name -d (string replace -r '^.{17}' '' $it) $more
end
