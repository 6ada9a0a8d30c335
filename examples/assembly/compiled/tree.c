typedef struct tree { int key; struct tree *left, *right; } tree;
static tree nodes[20];
static int count;

static tree *insert(tree *t, int key) {
    if (!t) {
        t = &nodes[count++];
        t->key = key;
    } else if (key < t->key) {
        t->left = insert(t->left, key);
    } else if (key > t->key) {
        t->right = insert(t->right, key);
    }
    return t;
}

static int depth(const tree *t) {
    if (!t)
        return 0;
    int l = depth(t->left), r = depth(t->right);
    return 1 + (l > r ? l : r);
}

int main(void) {
    tree *root = 0;
    for (int i = 1; i <= 40; i++)
        root = insert(root, i * 37 % 19);
    return depth(root) * 100 + count;
}
