cc lossy.c $(pkg-config --cflags --libs wtf8) -o lossy
printf 'caf\303\251 \377 \350\252\236 \355\240\275 \360\237\222\251 \342\202' | ./lossy
