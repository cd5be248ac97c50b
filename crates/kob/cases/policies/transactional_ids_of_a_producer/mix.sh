kafka-acls --add --allow-principal User:p --producer --topic t --transactional-id tx --operation Read
