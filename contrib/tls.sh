#!/bin/sh
# Writes a configuration of stunnel for a settings file: TLS for clients, and TLS to networks.
#
#   contrib/tls.sh FILE.toml [-a ADDRESS] [-c CERTIFICATE -k KEY] [PORT=HOST:PORT]..
#
# Clients connect with TLS to ADDRESS, which is port 6697 of all addresses if it is not given. Without
# a certificate one is made beside FILE.toml, for this host's name and localhost, which clients must be
# set to trust. PORT=HOST:PORT says where a network is whose `address` in the settings is
# 127.0.0.1:PORT; its certificate is checked by those that the system trusts, or those in the file
# CAFILE. The result is FILE.stunnel.conf, and the last line says how to start it. docs/TLS.md has what
# to know.
set -eu
usage() { sed -n '4p' "$0" | sed 's/^# */usage: /' >&2; exit 2; }
[ $# -ge 1 ] || usage
file=$(realpath -e "$1")
shift
accept=6697 certificate='' key=''
while getopts a:c:k: option; do
  case $option in
    a) accept=$OPTARG ;;
    c) certificate=$(realpath -e "$OPTARG") ;;
    k) key=$(realpath -e "$OPTARG") ;;
    *) usage ;;
  esac
done
shift $((OPTIND - 1))
key=${key:-$certificate}
base=${file%.toml}
for network; do
  case $network in
    *[!0-9]*=* | =* | *=:* | *=*:*[!0-9]* | *: ) usage ;;
    *=*:*) ;;
    *) usage ;;
  esac
done

# the first text at a key of the top of the settings, in quotes of either kind, also of a list
text_at() {
  awk -v key="$1" -v quotes="[\"']" '
    /^[ \t]*\[[^"]*\]?[ \t]*(#.*)?$/ && !is_value { exit }
    $0 ~ "^[ \t]*" key "[ \t]*=" { is_value = 1; sub(/^[^=]*=/, "") }
    is_value { sub(/^[ \t]*#.*/, "") }
    is_value && match($0, quotes) {
      quote = substr($0, RSTART, 1); text = substr($0, RSTART + 1)
      print substr(text, 1, index(text, quote) - 1); exit
    }' "$file"
}

clients=$(text_at listen_proxy) protocol='protocol = proxy'
if [ -z "$clients" ]; then clients=$(text_at listen) protocol=''; fi
[ "$clients" ] || { echo "tls: $file has no listen" >&2; exit 1; }

if [ -z "$certificate" ]; then
  certificate=$base.crt key=$base.key
  if [ ! -e "$certificate" ]; then
    name=$(hostname -f 2> /dev/null || hostname)
    (umask 077 && openssl req -x509 -newkey rsa:2048 -nodes -days 3650 -subj "/CN=$name" \
      -addext "subjectAltName=DNS:$name,DNS:localhost" -keyout "$key" -out "$certificate" 2> "$base.openssl") ||
      { cat "$base.openssl" >&2; exit 1; }
    rm -f "$base.openssl"
    echo "made $certificate for $name and localhost"
  fi
fi
{
  cat <<END
foreground = yes
pid =

; for clients: TLS, and plain to bnc
[clients]
accept = $accept
connect = $clients
$protocol
cert = $certificate
key = $key
; a client that vanished without a word is noticed within two minutes
socket = l:SO_KEEPALIVE=1
socket = l:TCP_KEEPIDLE=60
socket = l:TCP_KEEPINTVL=15
socket = l:TCP_KEEPCNT=4
END
  for network; do
    port=${network%%=*} target=${network#*=}
    host=${target%:*}
    cat <<END

; for a network: plain from bnc, TLS to the server, whose certificate is checked
[network-$port]
client = yes
accept = 127.0.0.1:$port
connect = $target
delay = yes
verifyChain = yes
CAfile = ${CAFILE:-/etc/ssl/certs/ca-certificates.crt}
checkHost = $host
sni = $host
END
  done
} > "$base.stunnel.conf"
for network; do
  if ! grep -q "^[[:blank:]]*address *= *[\"']127\.0\.0\.1:${network%%=*}[\"']" "$file"; then
    echo "tls: no network of $file has the address 127.0.0.1:${network%%=*}" >&2
  fi
done
echo "wrote $base.stunnel.conf; to start it: stunnel $base.stunnel.conf"
