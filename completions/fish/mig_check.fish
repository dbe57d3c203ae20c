# Completion of mig_check for fish: its commands. What it works on comes by standard input, so no file names are offered; made by tests/documents/completions.py.

complete -c mig_check -f
complete -c mig_check -n __fish_use_subcommand -a legacy -d 'judge a legacy stream'
