#!/bin/sh
# Makes an authority and the certificates of the machines around a relay, each in a file with its key, as HAProxy reads it.
#
#     certificates.sh FOLDER ROLE:NAME ..
#
# ROLE is producers, relays or stores, and NAME the name by which others reach the machine, or any name for a producer:
#
#     certificates.sh pki relays:relay1.example.net stores:store-a.example.net producers:web1
#
# FOLDER gets ca.pem, which every machine needs, NAME.pem for each machine, and ca.key, which none of them needs: keep it
# elsewhere. An authority that is there is used again. A certificate lasts DAYS days, 365 unless the variable is set.
set -eu

folder=$1
shift
mkdir -p "$folder"
cd "$folder"
umask 077
if [ ! -e ca.key ]; then
    openssl ecparam -name prime256v1 -genkey -noout -out ca.key
    openssl req -x509 -key ca.key -days 3650 -subj '/CN=relayd authority' -out ca.pem
fi
for machine; do
    role=${machine%%:*}
    name=${machine#*:}
    case $role in
        producers) use=clientAuth ;;
        stores) use=serverAuth ;;
        relays) use=clientAuth,serverAuth ;;
        *) echo "certificates.sh: $machine is not producers:NAME, relays:NAME or stores:NAME" >&2; exit 2 ;;
    esac
    printf 'subjectAltName=DNS:%s\nextendedKeyUsage=%s\nkeyUsage=digitalSignature\n' "$name" "$use" >extensions
    openssl ecparam -name prime256v1 -genkey -noout -out key
    openssl req -new -key key -subj "/OU=$role/CN=$name" -out request
    openssl x509 -req -in request -CA ca.pem -CAkey ca.key -CAcreateserial -days "${DAYS:-365}" -extfile extensions \
        -out certificate 2>/dev/null
    cat certificate key >"$name.pem"
    rm extensions request certificate key
done
chmod 644 ca.pem
