# the first is in three lines \
kafka-acls --bootstrap-server h:9092 --add \
  --allow-principal User:shop \
  --operation Write --topic orders
bin/kafka-acls.sh --add --allow-principal "User:a\
b" --operation Read --topic t
kafka-acls --add --allow-principal User:c --operation Read --topic o\'\
k
kafka-acls --add --allow-principal User:d --operation Read --topic last \
