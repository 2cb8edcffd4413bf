"""What bash, zsh and fish complete, made from the help of the program and of its commands.

In each of them the first word is completed to a command, `-` to an option of the command before it, and the value of
an option to one that it may have. Names of files are completed behind `<` and `>`, since the program reads standard
input and writes standard output; elsewhere only for a command whose help lists arguments.
"""

from help_texts import in_short

BASH = """\
# What is completed for {name} in bash, made from its --help by tools/pages of its repository.

_{name}_files() {{
  compopt -o filenames 2>/dev/null
  mapfile -t COMPREPLY < <(compgen -f -- "$1")
}}

_{name}() {{
  local current=${{COMP_WORDS[COMP_CWORD]}} before=${{COMP_WORDS[COMP_CWORD - 1]}} command= word choices= files=
  COMPREPLY=()
  # To bash `=` is a word of its own.
  if [[ $current == = ]]; then
    current=
  elif [[ $before == = ]]; then
    before=${{COMP_WORDS[COMP_CWORD - 2]}}
  fi
  for word in "${{COMP_WORDS[@]:1:COMP_CWORD - 1}}"; do
    case $word in
      {commands}) command=$word && break ;;
    esac
  done
  case $command:$before in
    *:*[\\<\\>]) files=yes ;;
{arms}
  esac
  if [[ -n $files && $current != -* ]]; then
    _{name}_files "$current"
  else
    mapfile -t COMPREPLY < <(compgen -W "$choices" -- "$current")
  fi
}}

complete -F _{name} {name}
"""

ZSH = """\
#compdef {name}
# What is completed for {name} in zsh, made from its --help by tools/pages of its repository.

_{name}() {{
  local curcontext=$curcontext state state_descr line
  local -A opt_args
  local -a commands=(
{commands}
  )
  _arguments -C {options} '1:command:->command' '*:: :->words' && return
  case $state in
    command) _describe command commands ;;
    words)
      case $line[1] in
{arms}
      esac
      ;;
  esac
}}

if [[ ${{funcstack[1]-}} == _{name} ]]; then
  _{name} "$@"
else
  compdef _{name} {name}
fi
"""

FISH = """\
# What is completed for {name} in fish, made from its --help by tools/pages of its repository.
complete -c {name} -f
"""


def quoted(text):
    """A text as one word of bash and of zsh."""
    return "'" + text.replace("'", r"'\''") + "'"


def names_of(told):
    """The names of all options of a help."""
    return [name for option in told.options for name in option.names()]


def bash_arms(command, told):
    """The values behind an option that takes one, and behind all else commands and options."""
    for option in told.options:
        if option.value:
            yield f"    {' | '.join(f'{command}:{name}' for name in option.names())}) choices={quoted(' '.join(option.choices))} ;;"
    files = " files=yes" if told.has_arguments else ""
    yield f"    {command}:*) choices={quoted(' '.join([*told.commands, *names_of(told)]))}{files} ;;"


def bash(program):
    """The text for bash."""
    arms = [arm for command, told in [*program.commands.items(), ("", program.whole)] for arm in bash_arms(command, told)]
    return BASH.format(name=program.name, commands=" | ".join(program.commands), arms="\n".join(arms))


def zsh_option(option):
    """An option as `_arguments` takes it."""
    names = option.names()
    ends = [name + ("=" if option.value and name.startswith("--") else "") for name in names]
    told = "[" + in_short(option.text).replace("[", r"\[").replace("]", r"\]") + "]"
    value = f":{option.value}:({' '.join(option.choices)})" if option.choices else f":{option.value}: " if option.value else ""
    return " ".join(quoted((f"({' '.join(names)})" if names[1:] else "") + end + told + value) for end in ends)


def zsh_options(told):
    """The options of a help, and names of files where it takes any."""
    return " ".join([*map(zsh_option, told.options), *(["'*:file:_files'"] if told.has_arguments else [])])


def zsh(program):
    """The text for zsh."""
    return ZSH.format(
        name=program.name,
        commands="\n".join(f"    {quoted(f'{command}:{in_short(told)}')}" for command, told in program.whole.commands.items()),
        options=" ".join(map(zsh_option, program.whole.options)),
        arms="\n".join(f"        {command}) _arguments {zsh_options(told)} ;;" for command, told in program.commands.items()),
    )


def fish_word(text):
    """A text as one word of fish, to which a backslash means between quotes what it means elsewhere."""
    return "'" + text.replace("\\", r"\\").replace("'", r"\'") + "'"


def fish_option(option):
    """An option as `complete` of fish takes it."""
    letter = f" -s {option.letter[1:]}" if option.letter else ""
    word = f" -l {option.word[2:]}" if option.word else ""
    choices = f" -a {fish_word(' '.join(option.choices))}" if option.choices else ""
    return f"{letter}{word}{' -x' if option.value else ''}{choices} -d {fish_word(in_short(option.text))}"


def fish(program):
    """The text for fish."""
    lines = [f" -a {command} -d {fish_word(in_short(told))}" for command, told in program.whole.commands.items()]
    lines += map(fish_option, program.whole.options)
    lines = [f"complete -c {program.name} -n __fish_use_subcommand{line}" for line in lines]
    for command, told in program.commands.items():
        front = f"complete -c {program.name} -n '__fish_seen_subcommand_from {command}'"
        lines += [front + fish_option(option) for option in told.options]
        lines += [f"{front} -F"] if told.has_arguments else []
    return FISH.format(name=program.name) + "\n".join(lines) + "\n"
