#!/bin/sh
# An installer that copies nothing: a menu, a folder, a question, and signs of life.
printf 'Frob 2.1\n\n 1) Typical\n 2) Custom\n 3) Quit\n\nChoice [1]: '
read -r choice || exit 1
[ "$choice" = 2 ] || exit 2
printf 'Folder [/usr/local]: '
read -r folder || exit 1
printf '%s is there already. Overwrite? ' "$folder"
read -r answer || exit 1
[ "$answer" = y ] || exit 3
for percent in ' 40' 100; do
    sleep 0.2
    printf 'copying %s%%\n' "$percent"
done
printf 'Installed.\n'
