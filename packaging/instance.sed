# Makes the units of instances (relayd@NAME, relayd-metrics@NAME) of those for one relay: an instance has a folder,
# /etc/relayd/NAME, with its files and its environment (ADMIN, FILES and what else the unit has as variables), and a user
# and a state of its own.
/^# The admin port/,/^Environment=.*rewrite-rules.conf"$/c\
# ADMIN, the admin port, which all commands below use; FILES, the files of rules, as in\
# FILES=--rewrite /etc/relayd/NAME/rewrite-rules.conf; and STATUS, as in STATUS=--status 8080, for a status page.\
Environment=STATUS=\
EnvironmentFile=/etc/relayd/%i/environment
/^# `systemctl edit/,/^Environment=ADMIN=/c\
# ADMIN, the admin port, and STATUS, as in STATUS=--status 8080, if it has a status page; also TO and PREFIX, if they are\
# others.\
Environment=TO=127.0.0.1:2013 PREFIX=carbon STATUS=\
EnvironmentFile=/etc/relayd/%i/environment
s|/etc/relayd/relay.conf|/etc/relayd/%i/relay.conf|g
s|^Description=.*|& (%i)|
s|^User=.*|&-%i|
s|^StateDirectory=.*|&-%i|
s|^RuntimeDirectory=.*|&-%i|
s|is-active relayd$|is-active relayd@%i|
s|--state |--instance %i --state |
s|^After=relayd.service|After=relayd@%i.service|
