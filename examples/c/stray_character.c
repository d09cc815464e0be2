int /* π */ at = a @ b;
