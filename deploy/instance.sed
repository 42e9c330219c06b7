# Makes of a unit that of one of several buildings, by its name: `sed -f instance.sed desk.service > desk@.service`.
s|/etc/desk/building\.toml|/etc/desk/%i.toml|g
s|/var/lib/desk/|/var/lib/desk/%i/|g
s#^\(State\|Runtime\|Working\)Directory=.*#&/%i#
s|/var/backups/desk |/var/backups/desk/%i |
s|127\.0\.0\.1:8080|${ADDRESS}|g
/^[^#]/s|desk\.service|desk@%i.service|g
/^Description=/s|$| %i|
# There stands its address, as ADDRESS=127.0.0.1:8081.
/^\[Service\]/a EnvironmentFile=/etc/desk/%i.conf
