# Completion of relayd-supervised's command line for fish: the options of `relayd run`.
complete -c relayd-supervised -w 'relayd run'
