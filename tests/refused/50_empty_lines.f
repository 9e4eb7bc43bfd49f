C empty lines are comments


