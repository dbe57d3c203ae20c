# Completion of mig_tool for fish: its commands. What it works on comes by standard input, so no file names are offered; made by tests/documents/completions.py.

complete -c mig_tool -f
complete -c mig_tool -n __fish_use_subcommand -a restore -d 'write the image of the guest\'s host, with machine frames counted up from BASE, or from 1048576'
complete -c mig_tool -n __fish_use_subcommand -a verify -d 'tell one line: version, kind, frames, records, and behind a VERIFY how many entries differ'
complete -c mig_tool -n __fish_use_subcommand -a normalise -d 'write the canonical stream of the guest'
complete -c mig_tool -n __fish_use_subcommand -a convert -d 'write the canonical stream of the guest of a legacy stream'
complete -c mig_tool -n __fish_use_subcommand -a save -d 'write a stream of the guest that a host is seen as at the pause, saved while a script changes the host'
complete -c mig_tool -n __fish_use_subcommand -a exercise -d 'tell one line: frames, rounds, entries, length of the canonical stream'
complete -c mig_tool -n __fish_use_subcommand -a walk -d 'tell one line: the frame that the address means in a stream\'s guest, and its type'
complete -c mig_tool -n __fish_use_subcommand -a walkimage -d 'tell the same of the host of an image, with the machine frame'
complete -c mig_tool -n __fish_use_subcommand -a relay -d 'write the stream that was read, up to its END; with status 1, 3, 4 or 5 a front of it'
complete -c mig_tool -n __fish_use_subcommand -a show -d 'write one line of JSON: kind, records, version, whether it is a libxl stream; with status 1 of what stands in front of the refused part, and the refusal'
