"""A registry of before the package: without a log, its units in /etc, its programs laid by hand."""

SERVICE = '[Service]\nType=oneshot\nExecStart=/usr/lib/goo/'
TIMERS = '\n[Install]\nWantedBy=timers.target\n'
BY_HAND = {
    'goo.service':
        '[Service]\nType=exec\nUser=goo\n'
        'ExecStart=/usr/bin/goo serve --db /var/lib/goo/registry.db --port 8470 --count 1000000\n'
        'ExecStopPost=/usr/lib/goo/close-database /var/lib/goo/registry.db\n'
        'PrivateNetwork=yes\n[Install]\nWantedBy=multi-user.target\n',
    'goo-door.socket':
        '[Socket]\nListenStream=/run/goo/door.sock\nSocketGroup=goo-door\nSocketMode=0660\n'
        '[Install]\nWantedBy=sockets.target\n',
    'goo-door.service':
        '[Unit]\nJoinsNamespaceOf=goo.service\n[Service]\nUser=goo-door\nPrivateNetwork=yes\n'
        'ExecStart=/usr/lib/systemd/systemd-socket-proxyd 127.0.0.1:8470\n',
    'goo-backup.service':
        f'{SERVICE}backup\nExecStopPost=/usr/lib/goo/backup --start-again\n',
    'goo-backup.timer': f'[Timer]\nOnCalendar=02:30{TIMERS}',
    'goo-advance.service': f'{SERVICE}advance\n',
    'goo-advance.timer': f'[Timer]\nOnCalendar=00:05{TIMERS}',
    'goo-exchange.service': f'{SERVICE}exchange\n',
    'goo-exchange.timer': f'[Timer]\nOnUnitInactiveSec=1h\nOnActiveSec=1h{TIMERS}',
    'goo-watch.service': f'{SERVICE}watch\n',
    'goo-watch.timer': f'[Timer]\nOnCalendar=hourly{TIMERS}',
}
"""Its units, as an earlier handbook had them installed, without what shuts them in."""
ENABLED = ('goo-door.socket', 'goo.service', 'goo-advance.timer', 'goo-backup.timer',
           'goo-exchange.timer', 'goo-watch.timer')
STARTED = r'''
ip link set lo up
dpkg-deb --extract /mnt/{package} /root/package
cd /root/package/usr
install -m 755 bin/goo /usr/bin/goo
install -D -m 755 lib/goo/close-database /usr/lib/goo/close-database
mkdir -p /usr/share/goo && cp -a share/goo/web share/goo/api /usr/share/goo/
install -D -m 644 -t /usr/lib/sysusers.d lib/sysusers.d/goo*
install -D -m 644 -t /usr/lib/tmpfiles.d lib/tmpfiles.d/goo*
systemd-sysusers
systemd-tmpfiles --create goo.conf
mkdir -p /etc/goo/tls /etc/goo/peers /var/backups/goo
install -d -o goo -g goo -m 700 /var/lib/goo
install -d -o goo-agent -g www-data -m 750 /var/lib/goo-exchange
openssl req -x509 -newkey ec -pkeyopt ec_paramgen_curve:P-256 -nodes -days 2 \
    -subj /CN=localhost -keyout /etc/goo/tls/key.pem -out /etc/goo/tls/cert.pem
openssl genpkey -algorithm ed25519 -out /etc/goo/exchange.key
chown goo-agent /etc/goo/exchange.key
chmod 400 /etc/goo/exchange.key
echo 'server_name localhost;' > /etc/goo/host.conf
htpasswd -cbB -C 8 /etc/goo/users office {password}
chown root:www-data /etc/goo/users
cp share/goo/etc/nginx/decoy share/goo/etc/nginx/callers /etc/goo/
cp share/goo/etc/nginx/people-file.conf /etc/goo/people.conf
echo 'office ISSUER' > /etc/goo/callers
chmod 640 /etc/goo/users /etc/goo/callers
sed 's/^code = .*/code = 7/' share/goo/etc/exchange.conf > /etc/goo/exchange.conf
PYTHONPATH=lib/python3/dist-packages python3 -P -m goo_service.people.callers
runuser -u goo -- goo init --db /var/lib/goo/registry.db --code 7 --today "$(date +%F)"
rm -f /etc/nginx/sites-enabled/default
cp ../etc/nginx/sites-available/goo.conf /etc/nginx/sites-enabled/goo.conf
cp share/goo/etc/nginx/main.conf /etc/nginx/modules-enabled/90-goo.conf
mkdir -p /etc/systemd/system/nginx.service.d /etc/systemd/system/goo.service.d
cp share/goo/etc/nginx/nginx.service.conf /etc/systemd/system/nginx.service.d/goo.conf
printf '[Service]\nMemoryMax=1G\n' > /etc/systemd/system/goo.service.d/override.conf
mkdir -m 700 /var/backups/goo/2025-04-05T020000Z
sed -i 's/worker_connections [0-9]*;/worker_connections 16384;/' /etc/nginx/nginx.conf
'''
"""What an earlier handbook had done by hand."""
